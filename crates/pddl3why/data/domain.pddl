(define (domain lamp)
 (:predicates (on))
 (:action switch :precondition (not (on)) :effect (on)))
