(define (problem q) (:domain d) (:init)
(:goal (preference g (p)))
(:metric minimize (* 5 (is-violated g))))
