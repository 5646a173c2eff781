"""Families of tasks and plans: steps, effects, constraints, preferences, metrics, plans, large and deep goals."""
import random

from hostile.texts import FAMILIES, NO_GOAL, ONE_ACTION, ONE_ATOM, domain, each, family, numbered, problem


# Actions, steps.
@family([20000, 40000, 80000, 160000])
def actions_many(n):
    return dict(
        d=domain(
            '(:predicates (p) (q))',
            *['(:action a%d :precondition (p) :effect (and (q) (not (p))))' % i for i in range(n)]
        ),
        p=problem('(:init (p))', '(:goal (q))'),
    )


@family([10000, 20000, 40000, 80000])
def actions_own_atoms(n):
    return dict(
        d=domain(
            '(:predicates ' + each('(p%d)', n) + ')',
            *[
                '(:action a%d :precondition (p%d) :effect (and (p%d) (not (p%d))))' % (i, i, (i + 1) % n, i)
                for i in range(n)
            ]
        ),
        p=problem('(:init (p0))', '(:goal (p1))'),
    )


@family([10000, 20000, 40000, 80000])
def reach_chain_backwards(n):
    return dict(
        d=domain(
            '(:predicates ' + each('(p%d)', n + 1) + ')',
            *['(:action a%d :precondition (p%d) :effect (p%d))' % (i, n - i - 1, n - i) for i in range(n)]
        ),
        p=problem('(:init (p0))', '(:goal (p1))'),
    )


@family([25000, 50000, 100000, 200000])
def lists_scanned_in_vain(n):
    """Short lists in one another, of which the last word alone may be a construct that is left out."""
    return dict(
        d=domain(ONE_ATOM, ONE_ACTION),
        p=problem('(:init)', '(:goal (and ' + each('(p ' * 19 + '=' + ')' * 19, n) + '))'),
    )


@family([500, 1000, 2000, 4000])
def reach_wide_preconditions(n):
    # each of n actions needs all of 50 atoms, reached late one after another
    return dict(
        d=domain(
            '(:predicates ' + each('(p%d)', n + 1) + ')',
            *[
                '(:action a%d :precondition (and %s) :effect (p%d))'
                % (i, ' '.join('(p%d)' % j for j in range(max(0, i - 50), i + 1)), i + 1)
                for i in range(n)
            ]
        ),
        p=problem('(:init (p0))', '(:goal (p1))'),
    )


@family([500, 1000, 2000, 4000])
def reach_or_of_not(n):
    return dict(
        d=domain(
            '(:predicates ' + each('(p%d)', n + 1) + ')',
            *[
                '(:action a%d :precondition (or %s) :effect (p%d))'
                % (i, ' '.join('(not (p%d))' % j for j in range(max(0, i - 50), i + 1)), i + 1)
                for i in range(n)
            ]
        ),
        p=problem('(:init (p0))', '(:goal (p1))'),
    )


@family([2, 3, 4])
def twelve_parameters(n):
    return dict(
        d=domain(
            '(:predicates (p ?x))',
            '(:action a :parameters ('
            + each('?x%d', 12)
            + ') :precondition (and '
            + each('(p ?x%d)', 12)
            + ') :effect (not (p ?x0)))',
        ),
        p=problem('(:objects ' + numbered(n) + ')', '(:init (p o0))', '(:goal ())'),
    )


@family([100, 200, 400, 800])
def static_or(n):
    return dict(
        d=domain(
            '(:predicates (s ?a ?b) (t ?a ?b) (q))',
            '(:action a :parameters (?a ?b) :precondition (or (s ?a ?b) (t ?a ?b)) :effect (q))',
        ),
        p=problem('(:objects ' + numbered(n) + ')', '(:init (s o0 o1) (t o1 o2))', '(:goal ())'),
    )


@family([50, 100, 200])
def static_or_three(n):
    return dict(
        d=domain(
            '(:predicates (s ?a ?b ?c) (t ?a ?b ?c) (q))',
            '(:action a :parameters (?a ?b ?c) :precondition (or (s ?a ?b ?c) (t ?a ?b ?c)) :effect (q))',
        ),
        p=problem('(:objects ' + numbered(n) + ')', '(:init (s o0 o1 o2) (t o1 o2 o3))', '(:goal ())'),
    )


@family([125, 250, 500, 1000])
def inequality(n):
    return dict(
        d=domain('(:predicates (q))', '(:action a :parameters (?a ?b) :precondition (not (= ?a ?b)) :effect (q))'),
        p=problem('(:objects ' + numbered(n) + ')', '(:init)', '(:goal ())'),
    )


@family([50, 100, 200])
def not_static_three(n):
    return dict(
        d=domain(
            '(:predicates (s ?a) (q))',
            '(:action a :parameters (?a ?b ?c) :precondition (and (not (s ?a)) (not (s ?b)) (not (s ?c))) :effect (q))',
        ),
        p=problem('(:objects ' + numbered(n) + ')', '(:init ' + each('(s o%d)', n - 1) + ')', '(:goal ())'),
    )


@family([50, 100, 200, 270])
def join_late(n):
    # the only selective condition is on the last parameter
    return dict(
        d=domain('(:predicates (s ?a) (q))', '(:action a :parameters (?a ?b ?c) :precondition (s ?c) :effect (q))'),
        p=problem('(:objects ' + numbered(n) + ')', '(:init)', '(:goal ())'),
    )


@family([50, 100, 200, 270])
def join_late_pairs(n):
    return dict(
        d=domain(
            '(:predicates (l ?a ?b) (q))',
            '(:action a :parameters (?a ?b ?c) :precondition (and (l ?a ?c) (l ?b ?c) (l ?c ?a)) :effect (q))',
        ),
        p=problem(
            '(:objects ' + numbered(n) + ')',
            '(:init ' + ' '.join('(l o%d o%d)' % (i, (i + 1) % n) for i in range(n)) + ')',
            '(:goal ())',
        ),
    )


@family([1000, 2000, 4000])
def join_two_of_many_facts(n):
    return dict(
        d=domain(
            '(:predicates (l ?a ?b) (q))', '(:action a :parameters (?a ?b) :precondition (l ?a ?b) :effect (q))'
        ),
        p=problem(
            '(:objects ' + numbered(n) + ')',
            '(:init ' + ' '.join('(l o%d o%d)' % (i, (i * 7 + k) % n) for i in range(n) for k in range(20)) + ')',
            '(:goal ())',
        ),
    )


@family([30, 60, 120])
def parameters_empty_last(n):
    return dict(
        d=domain('(:types t e)', '(:predicates (q))', '(:action a :parameters (?a ?b ?c ?d - t ?z - e) :effect (q))'),
        p=problem('(:objects ' + numbered(n) + ' - t)', '(:init)', '(:goal ())'),
    )


for where in ('goal', 'precondition', 'effect', 'constraint', 'prefconstraint', 'prefgoal', 'prefpre'):

    def g(n, where=where):
        q = '(?a ?b ?c ?d - t ?z - e)'
        D = ['(:types t e)', '(:predicates (q) (r ?a ?b ?c ?d ?z))']
        goal = '()'
        c = []
        if where == 'goal':
            goal = '(forall %s (r ?a ?b ?c ?d ?z))' % q
        if where == 'precondition':
            D.append('(:action a :precondition (exists %s (r ?a ?b ?c ?d ?z)) :effect (q))' % q)
        if where == 'effect':
            D.append('(:action a :effect (forall %s (r ?a ?b ?c ?d ?z)))' % q)
        if where == 'constraint':
            c = ['(:constraints (forall %s (always (r ?a ?b ?c ?d ?z))))' % q]
        if where == 'prefconstraint':
            c = ['(:constraints (forall %s (preference x (always (r ?a ?b ?c ?d ?z)))))' % q]
        if where == 'prefgoal':
            goal = '(forall %s (preference x (r ?a ?b ?c ?d ?z)))' % q
        if where == 'prefpre':
            D.append('(:action a :precondition (forall %s (preference x (r ?a ?b ?c ?d ?z))) :effect (q))' % q)
        return dict(
            d=domain(*D), p=problem('(:objects ' + numbered(n) + ' - t)', '(:init)', '(:goal ' + goal + ')', *c)
        )

    FAMILIES['quantifier_empty_last_' + where] = (g, [30, 60, 120], 'compile')


def g(n):
    return dict(
        d=domain('(:types t e)', '(:predicates (q))'),
        p=problem(
            '(:objects ' + numbered(n) + ' - t)',
            '(:init)',
            '(:goal (forall (?a ?b ?c ?d - t) (forall (?z - e) (q))))',
        ),
    )


FAMILIES['quantifier_empty_inside_refused'] = (g, [30, 60, 120], 'compile')


# Effects.
@family([50, 100, 200, 400])
def effects_forall_when(n):
    return dict(
        d=domain(
            '(:predicates (l ?a ?b) (r ?a ?b))',
            '(:action a :effect (forall (?a) (forall (?b) (when (l ?a ?b) (and (r ?b ?a) (not (l ?a ?b)))))))',
        ),
        p=problem('(:objects ' + numbered(n) + ')', '(:init (l o0 o1))', '(:goal ())'),
    )


@family([25, 50, 100])
def effects_nested_when(n):
    return dict(
        d=domain(
            '(:predicates (l ?a ?b) (r ?a ?b))',
            '(:action a :effect (forall (?a) (when (exists (?c) (l ?a ?c)) (forall (?b) (when (exists (?c) (l ?c ?b)) (and (r ?b ?a) (not (l ?a ?b))))))))',
        ),
        p=problem('(:objects ' + numbered(n) + ')', '(:init (l o0 o1))', '(:goal ())'),
    )


@family([5000, 10000, 20000, 40000])
def same_atom_many_whens(n):
    return dict(
        d=domain(
            '(:predicates (p) ' + each('(c%d)', n) + ')',
            '(:action a :effect (and ' + each('(when (c%d) (p)) (when (not (c%d)) (not (p)))', n) + '))',
        ),
        p=problem('(:init)', '(:goal ())', '(:constraints (always (p)))'),
    )


@family([500, 1000, 2000, 4000], command='evaluate')
def same_atom_many_readers(n):
    return dict(
        d=domain(
            '(:predicates (p) ' + each('(c%d)', n) + ')',
            '(:action a :effect (and ' + each('(when (c%d) (p))', n) + '))',
        ),
        p=problem(
            '(:init ' + each('(c%d)', n) + ')',
            '(:goal ())',
            '(:constraints (and ' + each('(preference g%d (always (or (p) (c%d))))', n) + '))',
        ),
        plan='(a)',
    )


@family([1000, 2000, 4000, 8000], command='evaluate')
def same_atom_open_conditions(n):
    # as many changes of one atom under conditions that steps change, and constraints that read it
    return dict(
        d=domain(
            '(:predicates (p) ' + each('(c%d)', n) + ')',
            '(:action a :effect (and ' + each('(when (c%d) (p))', n) + '))',
            '(:action b :effect (and ' + each('(not (c%d))', n) + '))',
        ),
        p=problem(
            '(:init ' + each('(c%d)', n) + ')',
            '(:goal ())',
            '(:constraints (and ' + each('(preference g%d (always (or (p) (c%d))))', n) + '))',
        ),
        plan='(a)',
    )


@family([5000, 10000, 20000, 40000], command='evaluate')
def same_atom_unconditional_readers(n):
    # the same literal n times in one effect, n constraints that read it
    return dict(
        d=domain('(:predicates (p) (c))', '(:action a :effect (and' + ' (p)' * n + '))'),
        p=problem(
            '(:init (c))',
            '(:goal ())',
            '(:constraints (and ' + each('(preference g%d (always (or (p) (c))))', n) + '))',
        ),
        plan='(a)',
    )


# Constraints and preferences.
@family([100, 200, 400, 800])
def constraints_times_steps(n):
    return dict(
        d=domain(
            '(:predicates (p) ' + each('(c%d)', n) + ')',
            *['(:action a%d :effect (and (p) (not (c%d))))' % (i, i) for i in range(n)]
        ),
        p=problem('(:init)', '(:goal ())', '(:constraints (and ' + each('(sometime-before (c%d) (p))', n) + '))'),
    )


@family([5000, 10000, 20000, 40000])
def constraints_own_atoms(n):
    return dict(
        d=domain(
            '(:predicates ' + each('(c%d)', n) + ')',
            *['(:action a%d :effect (and (c%d) (not (c%d))))' % (i, (i + 1) % n, i) for i in range(n)]
        ),
        p=problem(
            '(:init)',
            '(:goal ())',
            '(:constraints (and '
            + ' '.join('(sometime-after (c%d) (c%d))' % (i, (i + 1) % n) for i in range(n))
            + '))',
        ),
    )


@family([100, 200, 400])
def constraint_long_form_many_steps(n):
    # one constraint over n atoms, n steps that change one of them each: each step has an update of size n
    return dict(
        d=domain(
            '(:predicates ' + each('(c%d)', n) + ')',
            *['(:action a%d :effect (and (c%d) (not (c%d))))' % (i, (i + 1) % n, i) for i in range(n)]
        ),
        p=problem(
            '(:init)',
            '(:goal ())',
            '(:constraints (sometime-after (or ' + each('(c%d)', n) + ') (and ' + each('(c%d)', n) + ')))',
        ),
    )


def one_constraint(n, constraint, *changes):
    """One constraint over n facts, of which each of n steps changes one, where another fact says so."""
    return dict(
        d=domain(
            '(:predicates (c ?x) (p ?x))',
            *['(:action a%d :parameters (?x) :effect %s)' % (i, change) for i, change in enumerate(changes)]
        ),
        p=problem(
            '(:objects ' + numbered(n) + ')',
            '(:init ' + each('(p o%d)', n // 2) + ')',
            '(:goal ())',
            '(:constraints (preference g %s))' % constraint,
            '(:metric minimize (is-violated g))',
        ),
    )


CLEARS = '(and (c ?x) (when (c ?x) (not (p ?x))))'
SETS = '(and (not (c ?x)) (when (c ?x) (p ?x)))'


@family([1250, 2500, 5000, 10000])
def one_part_of_always(n):
    return one_constraint(n, '(always (forall (?x) (p ?x)))', CLEARS)


@family([1250, 2500, 5000, 10000])
def one_part_of_sometime(n):
    return one_constraint(n, '(sometime (exists (?x) (p ?x)))', CLEARS, SETS)


@family([1250, 2500, 5000, 10000])
def one_part_of_always_turned_back(n):
    # the steps can turn no part false
    return one_constraint(n, '(always (forall (?x) (p ?x)))', SETS)


@family([1250, 2500, 5000, 10000])
def all_parts_by_one_step(n):
    # each change of one step touches a part of its own, and its precondition fixes half of them
    return dict(
        d=domain(
            '(:predicates ' + each('(c%d) (p%d)', n) + ')',
            '(:action a :precondition (and ' + each('(c%d) (not (p%d))', n // 2) + ')',
            ':effect (and ' + each('(when (c%d) (not (p%d)))', n) + '))',
            '(:action b :effect (and ' + each('(when (p%d) (not (c%d))) (p%d)', n) + '))',
        ),
        p=problem(
            '(:init ' + each('(c%d)', n) + ')',
            '(:goal ())',
            '(:constraints (and (always (and ' + each('(or (p%d) (c%d))', n) + ')) (at-most-once (and ' + each('(c%d)', n) + '))))',
        ),
    )


@family([5000, 10000, 20000, 40000])
def many_parts_of_one_form(n):
    # no two parts are equal, or one the negation of the other
    return dict(
        d=domain(
            '(:predicates ' + each('(p%d)', n) + ')',
            '(:action a :precondition (and ' + each('(not (and (p0) (p%d)))', n) + ') :effect (and ' + each('(p%d)', n) + '))',
        ),
        p=problem('(:init)', '(:goal (or ' + each('(and (p0) (p%d))', n) + '))'),
    )


@family([2500, 5000, 10000, 20000])
def hard_constraints_of_one_step(n):
    return dict(
        d=domain(
            '(:predicates (q) ' + each('(p%d)', n) + ')',
            '(:action a :effect (and ' + each('(when (q) (not (p%d)))', n) + '))',
            '(:action b :effect (and (q) ' + each('(p%d)', n) + '))',
        ),
        p=problem(
            '(:init ' + each('(p%d)', n) + ')',
            '(:goal ())',
            '(:constraints (and ' + each('(always (p%d)) (at-most-once (p%d))', n) + '))',
        ),
    )


@family([250, 500, 1000, 2000])
def condition_times_occurrences(n):
    # p stands n times (each with another atom); one step changes it under a condition of n atoms: the update has n*n nodes
    return dict(
        d=domain(
            '(:predicates (p) ' + each('(c%d)', n) + ')',
            '(:action a :effect (when (or ' + each('(c%d)', n) + ') (p)))',
        ),
        p=problem('(:init)', '(:goal ())', '(:constraints (always (and ' + each('(or (p) (c%d))', n) + ')))'),
    )


@family([250, 500, 1000, 2000])
def wide_step_200(n):
    prefs = each('(preference w%d (p%d))', 200)
    return dict(
        d=domain(
            '(:predicates (r ?x) ' + each('(p%d)', 200) + ')',
            '(:action a :parameters (?x) :precondition (and ' + prefs + ') :effect (r ?x))',
        ),
        p=problem(
            '(:objects ' + numbered(n) + ')',
            '(:init)',
            '(:goal ())',
            '(:metric minimize (+ ' + each('(is-violated w%d)', 200) + '))',
        ),
    )


@family([250, 500, 1000, 2000])
def split_256(n):
    prefs = each('(preference w%d (p%d))', 8)
    return dict(
        d=domain(
            '(:predicates (r ?x) ' + each('(p%d)', 200) + ')',
            '(:action a :parameters (?x) :precondition (and ' + prefs + ') :effect (r ?x))',
        ),
        p=problem(
            '(:objects ' + numbered(n) + ')',
            '(:init)',
            '(:goal ())',
            '(:metric minimize (+ ' + each('(is-violated w%d)', 8) + '))',
        ),
    )


@family([12500, 25000, 50000, 100000])
def goal_preferences(n):
    return dict(
        d=domain('(:predicates (p ?x))'),
        p=problem(
            '(:objects ' + numbered(n) + ')',
            '(:init)',
            '(:goal (forall (?x) (preference g (p ?x))))',
            '(:metric minimize (is-violated g))',
        ),
    )


@family([12500, 25000, 50000, 100000], command='embed')
def goal_preferences_embed(n):
    return dict(
        d=domain('(:predicates (p ?x))'),
        p=problem(
            '(:objects ' + numbered(n) + ')',
            '(:init)',
            '(:goal (forall (?x) (preference g (p ?x))))',
            '(:metric minimize (is-violated g))',
        ),
        plan='',
    )


@family([12500, 25000, 50000, 100000])
def soft_constraints(n):
    return dict(
        d=domain('(:predicates (p ?x))'),
        p=problem(
            '(:objects ' + numbered(n) + ')',
            '(:init)',
            '(:goal ())',
            '(:constraints (forall (?x) (preference g (at-most-once (p ?x)))))',
            '(:metric minimize (is-violated g))',
        ),
    )


@family([12500, 25000, 50000, 100000])
def preference_names(n):
    return dict(
        d=domain(ONE_ATOM),
        p=problem(
            '(:init)',
            '(:goal (and ' + each('(preference g%d (p))', n) + '))',
            '(:metric minimize (+ ' + each('(is-violated g%d)', n) + '))',
        ),
    )


@family([12500, 25000, 50000, 100000])
def parts_of_one_preference(n):
    return dict(
        d=domain('(:predicates (p) (q))', '(:action a :effect (p))'),
        p=problem(
            '(:init)',
            '(:goal ())',
            '(:constraints (preference g (and' + ' (always (p)) (sometime (q))' * n + ')))',
            '(:metric minimize (is-violated g))',
        ),
    )


@family([25000, 50000, 100000, 200000])
def unweighted_pre_preferences(n):
    return dict(
        d=domain(
            '(:predicates (p) (q))', '(:action a :precondition (and' + ' (preference g (q))' * n + ') :effect (p))'
        ),
        p=problem('(:init)', '(:goal ())'),
    )


# Metric.
def goals_of_names(n):
    return '(:goal (and ' + each('(preference g%d (p))', n) + '))'


@family([50000, 100000, 200000, 400000])
def metric_terms(n):
    m = n // 4
    return dict(
        d=domain(ONE_ATOM),
        p=problem(
            '(:init)',
            goals_of_names(m),
            '(:metric minimize (+ ' + ' '.join('(* 2 (is-violated g%d))' % (i % m) for i in range(n)) + '))',
        ),
    )


@family([2500, 5000, 10000, 20000])
def metric_product_of_ones(n):
    return dict(
        d=domain(ONE_ATOM),
        p=problem(
            '(:init)',
            goals_of_names(n),
            '(:metric minimize (* (+ ' + each('(is-violated g%d)', n) + ')' + ' 1' * n + '))',
        ),
    )


@family([2500, 5000, 10000, 20000])
def metric_product_of_zero(n):
    return dict(
        d=domain(ONE_ATOM),
        p=problem(
            '(:init)',
            goals_of_names(n),
            '(:metric minimize (* (+ ' + each('(is-violated g%d)', n) + ')' + ' 0' * n + '))',
        ),
    )


@family([25000, 50000, 100000, 200000])
def metric_sum_then_numbers(n):
    m = n // 4
    return dict(
        d=domain(ONE_ATOM),
        p=problem(
            '(:init)',
            goals_of_names(m),
            '(:metric minimize (+ (+ ' + each('(is-violated g%d)', m) + ')' + ' 1 0.5 0.25' * (n // 2) + '))',
        ),
    )


@family([5000, 10000, 20000, 40000])
def metric_minus_nest(n):
    s = '(+ ' + each('(is-violated g%d)', n) + ')'
    return dict(
        d=domain(ONE_ATOM),
        p=problem('(:init)', goals_of_names(n), '(:metric minimize ' + '(- ' * 194 + s + ')' * 194 + ')'),
    )


@family([5000, 10000, 20000, 40000])
def metric_difference_nest(n):
    s = '(+ ' + each('(is-violated g%d)', n) + ')'
    for i in range(190):
        s = '(- 1 %s)' % s
    return dict(d=domain(ONE_ATOM), p=problem('(:init)', goals_of_names(n), '(:metric minimize ' + s + ')'))


@family([5000, 10000, 20000, 40000])
def metric_sums_of_sums(n):
    # ((g0 + g1) + g2 ..) nested 190 deep, each level adds n/190 names on the other side
    k = n // 190
    s = '0'
    for i in range(190):
        s = '(+ (+ %s) %s)' % (' '.join('(is-violated g%d)' % j for j in range(i * k, i * k + k)), s)
    return dict(d=domain(ONE_ATOM), p=problem('(:init)', goals_of_names(n), '(:metric minimize ' + s + ')'))


@family([50000, 100000, 200000, 400000])
def metric_one_name(n):
    return dict(
        d=domain(ONE_ATOM),
        p=problem('(:init)', '(:goal (preference g (p)))', '(:metric minimize (+' + ' (is-violated g)' * n + '))'),
    )


@family([50000, 100000, 200000])
def metric_many_small_nests(n):
    return dict(
        d=domain(ONE_ATOM),
        p=problem(
            '(:init)',
            '(:goal (preference g (p)))',
            '(:metric minimize (+' + ' (- (- (* 1 (- 1 (- 1 (is-violated g))))))' * n + '))',
        ),
    )


# Plans.
SWITCH = domain('(:predicates (p))', '(:action on :effect (p))', '(:action off :effect (not (p)))')


@family([250000, 500000, 1000000], command='evaluate')
def plan_unknown_actions(n):
    return dict(d=SWITCH, p=NO_GOAL, plan='(on)' + '(zz)' * (n - 1))


@family([125000, 250000, 500000, 1000000], command='evaluate')
def plan_ok(n):
    return dict(d=SWITCH, p=NO_GOAL, plan='(on)\n(off)\n' * (n // 2))


@family([50000, 100000, 200000, 400000], command='evaluate')
def plan_12_arguments(n):
    return dict(
        d=domain('(:predicates (p ?x))', '(:action a :parameters (' + each('?x%d', 12) + ') :effect (p ?x0))'),
        p=problem('(:objects o q)', '(:init)', '(:goal ())'),
        plan=('(a' + ' o q' * 6 + ')') * n,
    )


@family([50000, 100000, 200000, 400000], command='evaluate')
def plan_of_many_objects(n):
    m = 300
    r = random.Random(5)
    return dict(
        d=domain('(:predicates (p ?x))', '(:action a :parameters (?x ?y) :effect (and (p ?x) (not (p ?y))))'),
        p=problem('(:objects ' + numbered(m) + ')', '(:init)', '(:goal ())'),
        plan=''.join('(a o%d o%d)\n' % (r.randrange(m), r.randrange(m)) for _ in range(n)),
    )


@family([1000000, 2000000, 4000000], command='evaluate')
def plan_long_words(n):
    w = 'x' * (n // 4)
    return dict(d=SWITCH, p=NO_GOAL, plan='(on)(%s %s)(%s)(%s)' % (w, w, w, w))


@family([2000000, 4000000, 8000000], command='evaluate')
def plan_comments(n):
    return dict(d=SWITCH, p=NO_GOAL, plan='(on);' + '(' * (n // 2) + '\n' + ';)\n' * (n // 6) + '(off)')


@family([20000, 40000, 80000], command='evaluate')
def plan_of_many_actions(n):
    r = random.Random(3)
    return dict(
        d=domain('(:predicates (p))', *['(:action a%d :effect (p))' % i for i in range(n)]),
        p=NO_GOAL,
        plan=''.join('(a%d)' % r.randrange(n) for _ in range(8 * n)),
    )


@family([10000, 20000, 40000, 80000], command='embed')
def embed_far_actions(n):
    return dict(
        d=domain('(:predicates (p))', *['(:action a%d :effect (p))' % i for i in range(n)]),
        p=NO_GOAL,
        plan=('(a0)(a%d)' % (n - 1)) * (2 * n),
    )


@family([10000, 20000, 40000, 80000], command='embed')
def embed_random_actions(n):
    r = random.Random(3)
    return dict(
        d=domain('(:predicates (p))', *['(:action a%d :effect (p))' % i for i in range(n)]),
        p=NO_GOAL,
        plan=''.join('(a%d)' % r.randrange(n) for _ in range(8 * n)),
    )


@family([10000, 20000, 40000, 80000], command='embed')
def embed_last_of_256(n):
    prefs = each('(preference w%d (p%d))', 8)
    return dict(
        d=domain('(:predicates ' + each('(p%d)', 8) + ')', '(:action a :precondition (and ' + prefs + '))'),
        p=problem('(:init)', '(:goal ())', '(:metric minimize (+ ' + each('(is-violated w%d)', 8) + '))'),
        plan='(a)' * n,
    )


@family([1250, 2500, 5000], command='embed')
def embed_wide_200(n):
    prefs = each('(preference w%d (p%d))', 200)
    return dict(
        d=domain('(:predicates ' + each('(p%d)', 200) + ')', '(:action a :precondition (and ' + prefs + '))'),
        p=problem('(:init)', '(:goal ())', '(:metric minimize (+ ' + each('(is-violated w%d)', 200) + '))'),
        plan='(a)' * n,
    )


@family([250, 500, 1000], command='evaluate')
def plan_times_constraints(n):
    return dict(
        d=SWITCH,
        p=problem('(:init)', '(:goal ())', '(:constraints (and' + ' (preference g (at-most-once (p)))' * n + '))'),
        plan='(on)(off)' * n,
    )


# Large goals and deep texts.
@family([100, 200, 400, 700])
def goal_of_pairs(n):
    return dict(
        d=domain('(:predicates (l ?a ?b))'),
        p=problem('(:objects ' + numbered(n) + ')', '(:init)', '(:goal (forall (?a ?b) (l ?a ?b)))'),
    )


@family([250, 500, 1000, 2000])
def deep_nots(n):
    return dict(
        d=domain(ONE_ATOM),
        p=problem('(:init)', '(:goal (and ' + ' '.join('(not ' * 190 + '(p)' + ')' * 190 for i in range(n)) + '))'),
    )


@family([250, 500, 1000, 2000])
def deep_imply(n):
    return dict(
        d=domain('(:predicates (p) (q))'),
        p=problem(
            '(:init)', '(:goal (and ' + ' '.join('(imply (q) ' * 190 + '(p)' + ')' * 190 for i in range(n)) + '))'
        ),
    )


@family([250, 500, 1000, 2000])
def deep_imply_left(n):
    return dict(
        d=domain('(:predicates (p) (q))'),
        p=problem(
            '(:init)', '(:goal (and ' + ' '.join('(imply ' * 190 + '(p)' + ' (q))' * 190 for i in range(n)) + '))'
        ),
    )


@family([250, 500, 1000, 2000])
def deep_and_goal(n):
    return dict(
        d=domain('(:predicates (p) (q))'),
        p=problem(
            '(:init)', '(:goal (and ' + ' '.join('(and (q) ' * 190 + '(p)' + ')' * 190 for i in range(n)) + '))'
        ),
    )
