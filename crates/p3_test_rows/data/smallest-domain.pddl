(define (domain d) (:predicates (p))
(:action a :parameters () :precondition () :effect (p)))
