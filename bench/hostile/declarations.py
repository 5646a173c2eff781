"""Families of texts and declarations: reading, types, lists of variables, predicates, functions."""
import random

from hostile.texts import NO_GOAL, ONE_ACTION, ONE_ATOM, domain, each, family, numbered, problem


# Reading.
@family([1000000, 2000000, 4000000])
def blanks_comments(n):
    return dict(d=domain(ONE_ATOM, ONE_ACTION, '; ' + 'x(' * (n // 2) + '\n' + ' ' * n), p=NO_GOAL)


@family([200000, 400000, 800000])
def comment_lines(n):
    return dict(d=domain(ONE_ATOM, ONE_ACTION, ';\n' * n + ' ;)(\n' * n), p=NO_GOAL)


@family([50000, 100000, 200000, 400000])
def empty_lists_at_the_end_malformed(n):
    return dict(d=domain(ONE_ATOM, ONE_ACTION), p=problem('(:init)', '(:goal (and' + ' (and)' * n + ')) ()'))


@family([50000, 100000, 200000, 400000])
def unknown_at_the_end(n):
    return dict(d=domain(ONE_ATOM, ONE_ACTION), p=problem('(:init)', '(:goal (and' + ' (p)' * n + ' (zz)))'))


@family([100000, 200000, 400000, 800000])
def objects_distinct(n):
    return dict(d=domain(ONE_ATOM, ONE_ACTION), p=problem('(:objects ' + numbered(n) + ')', '(:init)', '(:goal ())'))


@family([25000, 50000, 100000, 200000])
def names_last_byte(n):
    pre = 'o' + 'x' * 60
    return dict(
        d=domain('(:predicates (p ?x))'),
        p=problem('(:objects ' + ' '.join('%s%06d' % (pre, i) for i in range(n)) + ')', '(:init)', '(:goal ())'),
    )


@family([12000, 25000, 50000, 100000])
def names_last_byte_used(n):
    pre = 'o' + 'x' * 60
    l = ['%s%06d' % (pre, i) for i in range(n)]
    return dict(
        d=domain('(:predicates (p ?x))'),
        p=problem(
            '(:objects ' + ' '.join(l) + ')', '(:init ' + ' '.join('(p %s)' % x for x in l) + ')', '(:goal ())'
        ),
    )


@family([1000, 2000, 3900])
def long_name_used_often(n):
    o = 'o' + 'x' * n
    return dict(
        d=domain('(:predicates (p ?x))'),
        p=problem(
            '(:objects ' + o + ')', '(:init)', '(:goal (and ' + ' '.join('(p %s)' % o for i in range(n)) + '))'
        ),
    )


@family([1000, 2000, 2700])
def long_preference_name(n):
    o = 'g' + 'x' * n
    return dict(
        d=domain(ONE_ATOM),
        p=problem(
            '(:init)',
            '(:goal (and ' + ' '.join('(preference %s (p))' % o for i in range(n)) + '))',
            '(:metric minimize (+ ' + ' '.join('(is-violated %s)' % o for i in range(n)) + '))',
        ),
    )


@family([1000000, 2000000, 3900000])
def two_long_names(n):
    a = 'o' + 'x' * n
    return dict(
        d=domain('(:predicates (p ?x))', '(:action a :parameters (?x) :effect (p ?x))'),
        p=problem('(:objects %sa %sb)' % (a, a), '(:init (p %sa) (not (p %sb)))' % (a, a), '(:goal ())'),
    )


@family([500, 1000, 2000])
def long_action_names(n):
    nm = ['a' + 'x' * (n * 2) + '%04d' % i for i in range(n)]
    return dict(
        d=domain(ONE_ATOM, *['(:action %s :effect (p))' % x for x in nm]),
        p=NO_GOAL,
        plan='\n'.join('(%s)' % x for x in nm),
    )


# Types.
@family([10000, 20000, 40000, 80000, 160000])
def types_chain(n):
    return dict(
        d=domain(
            '(:types ' + ' '.join('t%d - t%d' % (i, i + 1) for i in range(n)) + ')', '(:predicates (p ?x - t%d))' % n
        ),
        p=problem('(:objects ' + each('o%d - t%d', n) + ')', '(:init ' + each('(p o%d)', n) + ')', '(:goal ())'),
    )


@family([5000, 10000, 20000, 40000])
def types_chain_many_predicates(n):
    return dict(
        d=domain(
            '(:types ' + ' '.join('t%d - t%d' % (i, i + 1) for i in range(n)) + ')',
            '(:predicates ' + each('(p%d ?x - t%d)', n) + ')',
        ),
        p=problem(
            '(:objects ' + each('o%d - t%d', n) + ')',
            '(:init ' + ' '.join('(p%d o%d)' % (n - 1, i) for i in range(n)) + ')',
            '(:goal ())',
        ),
    )


@family([5000, 10000, 20000, 40000])
def types_chain_facts_at_each(n):
    return dict(
        d=domain(
            '(:types ' + ' '.join('t%d - t%d' % (i, i + 1) for i in range(n)) + ')',
            '(:predicates ' + each('(p%d ?x - t%d)', n) + ')',
        ),
        p=problem(
            '(:objects ' + each('o%d - t%d', n) + ')',
            '(:init ' + ' '.join('(p%d o%d)' % (i, i // 2) for i in range(n)) + ')',
            '(:goal ())',
        ),
    )


@family([20000, 40000, 80000, 160000])
def types_cycle(n):
    return dict(
        d=domain(
            '(:types ' + ' '.join('t%d - t%d' % (i, (i + 1) % n) for i in range(n)) + ')',
            '(:predicates (p ?x - t5) (q ?x - t9))',
        ),
        p=problem(
            '(:objects ' + each('o%d - t%d', n) + ')', '(:init ' + each('(p o%d) (q o%d)', n) + ')', '(:goal ())'
        ),
    )


@family([2000, 4000, 8000, 16000])
def types_cycle_many_predicates(n):
    return dict(
        d=domain(
            '(:types ' + ' '.join('t%d - t%d' % (i, (i + 1) % n) for i in range(n)) + ')',
            '(:predicates ' + each('(p%d ?x - t%d)', n) + ')',
        ),
        p=problem(
            '(:objects ' + each('o%d - t%d', n) + ')',
            '(:init ' + ' '.join('(p%d o%d)' % (i, (i * 7) % n) for i in range(n)) + ')',
            '(:goal ())',
        ),
    )


@family([30, 60, 120, 240])
def types_lattice(n):
    L = 10
    return dict(
        d=domain(
            '(:types '
            + ' '.join('l%d_%d - l%d_%d' % (k, i, k + 1, j) for k in range(L) for i in range(n) for j in range(n))
            + ')',
            '(:predicates (p ?x - l%d_0) (q ?x - l0_0))' % L,
        ),
        p=problem(
            '(:objects ' + ' '.join('o%d - l0_%d' % (i, i % n) for i in range(n * n)) + ')',
            '(:init ' + each('(p o%d)', n * n) + ')',
            '(:goal ())',
        ),
    )


@family([30000, 60000, 120000, 240000])
def many_parents(n):
    return dict(
        d=domain('(:types ' + each('a - p%d', n) + ')', '(:predicates (p ?x - p0) (q ?x - p%d))' % (n - 1)),
        p=problem('(:objects ' + numbered(n) + ' - a)', '(:init ' + each('(p o%d) (q o%d)', n) + ')', '(:goal ())'),
    )


@family([5000, 10000, 20000, 40000])
def many_parents_many_predicates(n):
    return dict(
        d=domain('(:types ' + each('a - p%d', n) + ')', '(:predicates ' + each('(q%d ?x - p%d)', n) + ')'),
        p=problem('(:objects ' + numbered(n) + ' - a)', '(:init ' + each('(q%d o%d)', n) + ')', '(:goal ())'),
    )


@family([30000, 60000, 120000, 240000])
def object_many_types(n):
    return dict(
        d=domain('(:types ' + each('t%d', n) + ')', '(:predicates (p ?x - t0) (q ?x - t%d))' % (n - 1)),
        p=problem('(:objects ' + each('o - t%d', n) + ')', '(:init (p o) (q o))', '(:goal ())'),
    )


@family([5000, 10000, 20000, 40000])
def object_many_types_many_predicates(n):
    return dict(
        d=domain('(:types ' + each('t%d', n) + ')', '(:predicates ' + each('(p%d ?x - t%d)', n) + ')'),
        p=problem('(:objects ' + each('o - t%d', n) + ')', '(:init ' + each('(p%d o)', n) + ')', '(:goal ())'),
    )


@family([200, 400, 800])
def objects_many_types(n):
    return dict(
        d=domain('(:types ' + each('t%d', n) + ')', '(:predicates ' + each('(p%d ?x - t%d)', n) + ')'),
        p=problem(
            '(:objects ' + ' '.join(numbered(n) + ' - t%d' % i for i in range(n)) + ')',
            '(:init ' + each('(p%d o%d)', n) + ')',
            '(:goal ())',
        ),
    )


@family([2000, 4000, 8000, 16000])
def declared_twice_many_lists(n):
    # n parameter types, n objects that are declared twice
    return dict(
        d=domain('(:types ' + each('t%d - u', n) + ')', '(:predicates ' + each('(p%d ?x - t%d)', n) + ')'),
        p=problem(
            '(:objects ' + numbered(n) + ' - u ' + numbered(n) + ' - t0 )',
            '(:init ' + each('(p0 o%d)', n) + ')',
            '(:goal ())',
        ),
    )


@family([2000, 4000, 8000, 16000])
def declared_twice_chain(n):
    # n parameter types above one another, n objects declared twice at the bottom: each fits all
    return dict(
        d=domain(
            '(:types ' + ' '.join('t%d - t%d' % (i, i + 1) for i in range(n)) + ')',
            '(:predicates ' + each('(p%d ?x - t%d)', n) + ')',
        ),
        p=problem(
            '(:objects ' + numbered(n) + ' - t0 ' + numbered(n) + ' - t1 )',
            '(:init ' + each('(p%d o%d)', n) + ')',
            '(:goal ())',
        ),
    )


@family([2000, 4000, 8000, 16000])
def either_long_predicate(n):
    return dict(
        d=domain('(:types ' + each('t%d', n) + ')', '(:predicates (p ?x - (either ' + each('t%d', n) + ')))'),
        p=problem('(:objects ' + each('o%d - t%d', n) + ')', '(:init ' + each('(p o%d)', n) + ')', '(:goal ())'),
    )


@family([2000, 4000, 8000, 16000, 32000])
def either_variable_fits(n):
    # a variable of n types used n times at a parameter of n other types, each above one of them
    return dict(
        d=domain(
            '(:types ' + each('t%d - s%d', n) + ')',
            '(:predicates (p ?x - (either ' + each('s%d', n) + ')))',
            '(:action a :parameters (?x - (either ' + each('t%d', n) + ')) :precondition (and' + ' (p ?x)' * n + '))',
        ),
        p=problem('(:objects o - t0)', '(:init (p o))', '(:goal ())'),
    )


@family([500, 1000, 2000, 4000])
def either_many_variables_fit(n):
    # variables with own lists of 20 types, parameters with own lists of 20
    r = random.Random(1)
    ts = lambda k: ' '.join('t%d' % i for i in r.sample(range(20), k))
    return dict(
        d=domain(
            '(:types ' + each('t%d', 20) + ')',
            '(:predicates '
            + ' '.join(
                '(p%d ?x - (either %s))' % (i, ' '.join('t%d' % k for k in r.sample(range(20), 20))) for i in range(n)
            )
            + ')',
            '\n'.join(
                '(:action a%d :parameters (?x - (either %s)) :precondition (and %s))'
                % (i, ts(10), ' '.join('(p%d ?x)' % r.randrange(n) for _ in range(10)))
                for i in range(n)
            ),
        ),
        p=problem('(:objects o - t0)', '(:init)', '(:goal ())'),
    )


@family([250, 500, 1000, 2000])
def either_many_lists(n):
    # n quantifiers with n different lists of n types; two objects
    T = ['t%d' % i for i in range(n)]
    return dict(
        d=domain('(:types ' + ' '.join(T) + ')', '(:predicates (p))'),
        p=problem(
            '(:objects x - t0 y - t1)',
            '(:init)',
            '(:goal (and '
            + ' '.join('(forall (?x - (either %s)) (p))' % ' '.join(T[i:] + T[:i]) for i in range(n))
            + '))',
        ),
    )


@family([2000, 4000, 8000, 16000])
def fit_same_pair_far(n):
    # a variable of type t0 used n times at a parameter of type t_n, n steps up the chain
    return dict(
        d=domain(
            '(:types ' + ' '.join('t%d - t%d' % (i, i + 1) for i in range(n)) + ')',
            '(:predicates (p ?x - t%d))' % n,
            '(:action a :parameters (?x - t0) :precondition (and' + ' (p ?x)' * n + '))',
        ),
        p=problem('(:objects o - t0)', '(:init)', '(:goal ())'),
    )


@family([2000, 4000, 8000, 16000])
def fit_many_pairs_far(n):
    return dict(
        d=domain(
            '(:types ' + ' '.join('t%d - t%d' % (i, i + 1) for i in range(n)) + ')',
            '(:predicates ' + each('(p%d ?x - t%d)', n) + ')',
            '(:action a :parameters (?x - t0) :precondition (and ' + each('(p%d ?x)', n) + '))',
        ),
        p=problem('(:objects o - t0)', '(:init)', '(:goal ())'),
    )


@family([2000, 4000, 8000])
def fit_many_variables_far(n):
    return dict(
        d=domain(
            '(:types ' + ' '.join('t%d - t%d' % (i, i + 1) for i in range(n)) + ')',
            '(:predicates ' + each('(p%d ?x - t%d)', n) + ')',
            '\n'.join(
                '(:action a%d :parameters (?x - t%d) :precondition (and (p%d ?x) (p%d ?x)))' % (i, i, i, n - 1)
                for i in range(n)
            ),
        ),
        p=problem('(:objects o - t%d)' % n, '(:init)', '(:goal ())'),
    )


# ranges
@family([500, 1000, 2000, 4000])
def ranges_of_a_chain(n):
    # n quantifiers over n nested ranges of n objects; nothing is expanded (the second variable has no object)
    return dict(
        d=domain(
            '(:types e ' + ' '.join('t%d - t%d' % (i, i + 1) for i in range(n)) + ')',
            '(:predicates (p))',
            *['(:action a%d :precondition (forall (?y - e ?x - t%d) (p)))' % (i, i) for i in range(n)]
        ),
        p=problem('(:objects ' + numbered(10 * n) + ' - t0)', '(:init)', '(:goal ())'),
    )


@family([2000, 4000, 8000])
def ranges_of_flat_types(n):
    # n quantifiers over as many types, each of one object
    return dict(
        d=domain(
            '(:types ' + each('t%d', n) + ')',
            '(:predicates (p ?x) (q))',
            '(:action a :precondition (or (q) (and ' + each('(forall (?x - t%d) (p ?x))', n) + ')) :effect (q))',
        ),
        p=problem('(:objects ' + each('o%d - t%d', n) + ')', '(:init (q))', '(:goal (q))'),
    )


@family([500, 1000, 2000, 4000])
def ranges_empty_last(n):
    return dict(
        d=domain(
            '(:types e ' + ' '.join('t%d - t%d' % (i, i + 1) for i in range(n)) + ')',
            '(:predicates (p))',
            *['(:action a%d :precondition (forall (?x - t%d ?y - e) (p)))' % (i, i) for i in range(n)]
        ),
        p=problem('(:objects ' + numbered(10 * n) + ' - t0)', '(:init)', '(:goal ())'),
    )


@family([500, 1000, 2000, 4000])
def ranges_then_refused_14(n):
    return dict(
        d=domain(
            '(:types ' + ' '.join('t%d - t%d' % (i, i + 1) for i in range(n)) + ')',
            '(:predicates (p))',
            '(:action big :parameters (?a ?b ?c ?d - t0))',
            *['(:action a%d :parameters (?x - t%d))' % (i, i) for i in range(n)]
        ),
        p=problem('(:objects ' + numbered(10 * n) + ' - t0)', '(:init)', '(:goal ())'),
    )


# Long lists of variables.
@family([50000, 100000, 200000, 400000])
def variables_long_list(n):
    return dict(
        d=domain('(:predicates (p ?x))'),
        p=problem('(:objects o)', '(:init)', '(:goal (forall (' + each('?x%d', n) + ') (p ?x%d)))' % (n - 1)),
    )


@family([25000, 50000, 100000, 200000])
def variables_long_list_used(n):
    return dict(
        d=domain('(:predicates (p ?x))'),
        p=problem(
            '(:objects o)', '(:init)', '(:goal (forall (' + each('?x%d', n) + ') (and ' + each('(p ?x%d)', n) + ')))'
        ),
    )


@family([10000, 20000, 40000, 80000])
def parameters_long(n):
    return dict(
        d=domain(
            '(:predicates (p ?x))',
            '(:action a :parameters (' + each('?x%d', n) + ') :effect (and ' + each('(p ?x%d)', n) + '))',
        ),
        p=problem('(:objects o)', '(:init)', '(:goal ())'),
    )


@family([5000, 10000, 20000, 40000])
def parameters_long_static_conjuncts(n):
    return dict(
        d=domain(
            '(:predicates (p ?x) (q))',
            '(:action a :parameters ('
            + each('?x%d', n)
            + ') :precondition (and '
            + each('(p ?x%d)', n)
            + ') :effect (q))',
        ),
        p=problem('(:objects o)', '(:init (p o))', '(:goal ())'),
    )


@family([5000, 10000, 20000, 40000])
def parameters_long_dynamic_conjuncts(n):
    return dict(
        d=domain(
            '(:predicates (p ?x))',
            '(:action a :parameters ('
            + each('?x%d', n)
            + ') :precondition (and '
            + each('(p ?x%d)', n)
            + ') :effect (p ?x0))',
        ),
        p=problem('(:objects o)', '(:init (p o))', '(:goal ())'),
    )


@family([2500, 5000, 10000, 20000])
def parameters_long_inner_quantifiers(n):
    return dict(
        d=domain(
            '(:predicates (p ?x))',
            '(:action a :parameters ('
            + each('?x%d', n)
            + ') :precondition (and '
            + ' '.join('(exists (?y) (p ?y))' for i in range(n))
            + ') :effect (p ?x0))',
        ),
        p=problem('(:objects o)', '(:init (p o))', '(:goal ())'),
    )


@family([2500, 5000, 10000, 20000])
def parameters_long_inner_effects(n):
    return dict(
        d=domain(
            '(:predicates (p ?x))',
            '(:action a :parameters ('
            + each('?x%d', n)
            + ') :effect (and '
            + ' '.join('(forall (?y) (p ?y))' for i in range(n))
            + '))',
        ),
        p=problem('(:objects o)', '(:init (p o))', '(:goal ())'),
    )


@family([2500, 5000, 10000, 20000])
def constraint_long_inner(n):
    return dict(
        d=domain('(:predicates (p ?x))'),
        p=problem(
            '(:objects o)',
            '(:init (p o))',
            '(:goal ())',
            '(:constraints (forall ('
            + each('?x%d', n)
            + ') (and '
            + ' '.join('(preference (always (exists (?y) (p ?y))))' for i in range(n))
            + ')))',
        ),
    )


@family([2500, 5000, 10000, 20000])
def preferences_under_long_list(n):
    return dict(
        d=domain('(:predicates (p ?x))'),
        p=problem(
            '(:objects o)',
            '(:init (p o))',
            '(:goal (forall (' + each('?x%d', n) + ') (and ' + each('(preference (p ?x%d))', n) + ')))',
        ),
    )


@family([250, 500, 1000, 2000])
def nested_lists_190(n):
    s = '(p ?v0_0)'
    for k in range(190):
        s = '(forall (' + ' '.join('?v%d_%d' % (k, i) for i in range(n)) + ') ' + s + ')'
    return dict(d=domain('(:predicates (p ?x))'), p=problem('(:objects o)', '(:init)', '(:goal ' + s + ')'))


@family([250, 500, 1000, 2000])
def nested_hiding_190(n):
    s = '(p ?v0)'
    for k in range(190):
        s = '(forall (' + each('?v%d', n) + ') ' + s + ')'
    return dict(d=domain('(:predicates (p ?x))'), p=problem('(:objects o)', '(:init)', '(:goal ' + s + ')'))


# Predicates, init, functions.
@family([500, 1000, 1700])
def predicates_many_arguments(n):
    return dict(
        d=domain(
            '(:predicates '
            + ' '.join('(p%d %s)' % (i, ' '.join('?x%d' % j for j in range(n // 4))) for i in range(n))
            + ')'
        ),
        p=problem(
            '(:objects o)',
            '(:init ' + ' '.join('(p%d %s)' % (i, ' '.join(['o'] * (n // 4))) for i in range(n)) + ')',
            '(:goal ())',
        ),
    )


@family([100000, 200000, 400000, 800000])
def one_atom_many_arguments(n):
    return dict(
        d=domain('(:predicates (p ' + each('?x%d', n) + '))'),
        p=problem('(:objects o)', '(:init (p ' + ' '.join(['o'] * n) + '))', '(:goal ())'),
    )


@family([50000, 100000, 200000, 400000])
def init_values(n):
    m = 700
    return dict(
        d=domain(ONE_ATOM, '(:functions (total-cost) - number (f ?a ?b) - number)'),
        p=problem(
            '(:objects ' + numbered(m) + ')',
            '(:init ' + ' '.join('(= (f o%d o%d) %d)' % (i // m, i % m, i) for i in range(n)) + ')',
            '(:goal ())',
        ),
    )


@family([50000, 100000, 200000, 400000])
def init_values_read(n):
    m = int(n**0.5)
    return dict(
        d=domain(
            ONE_ATOM,
            '(:functions (total-cost) - number (f ?a ?b) - number)',
            '(:action a :parameters (?a ?b) :effect (increase (total-cost) (f ?a ?b)))',
        ),
        p=problem(
            '(:objects ' + numbered(m) + ')',
            '(:init ' + ' '.join('(= (f o%d o%d) %d)' % (i, j, i) for i in range(m) for j in range(m)) + ')',
            '(:goal ())',
            '(:metric minimize (total-cost))',
        ),
    )


@family([50000, 100000, 200000, 400000])
def init_same_atom(n):
    return dict(
        d=domain('(:predicates (p ?x))'),
        p=problem('(:objects o)', '(:init ' + '(p o) (not (p o)) ' * n + ')', '(:goal ())'),
    )


@family([20000, 40000, 80000, 160000])
def increases_many(n):
    return dict(
        d=domain(
            ONE_ATOM,
            '(:functions (total-cost) - number (f ?x) - number)',
            '(:action a :parameters (?x) :effect (and' + ' (increase (total-cost) (f ?x))' * n + '))',
        ),
        p=problem('(:objects o)', '(:init (= (f o) 2))', '(:goal ())', '(:metric minimize (total-cost))'),
    )


@family([20000, 40000, 80000, 160000])
def functions_many(n):
    return dict(
        d=domain(
            ONE_ATOM,
            '(:functions (total-cost) - number ' + each('(f%d) - number', n) + ')',
            '(:action a :effect (and (increase (total-cost) (f0))'
            + ' (increase (total-cost) (f%d))' % (n - 1)
            + '))',
        ),
        p=problem(
            '(:objects o)', '(:init ' + each('(= (f%d) 2)', n) + ')', '(:goal ())', '(:metric minimize (total-cost))'
        ),
    )
