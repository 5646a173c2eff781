(define (problem night) (:domain lamp) (:init)
 (:constraints (preference dark (always (not (on)))))
 (:goal (on))
 (:metric minimize (* 2 (is-violated dark))))
