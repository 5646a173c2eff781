"""What families of hostile texts are made of: a function of a size for each, with the sizes to try and the command."""

FAMILIES = {}


def each(text, count):
    """A text for each number below a count, with the number in the place of %d."""
    return ' '.join(text.replace('%d', str(i)) for i in range(count))


def numbered(count, letter='o'):
    """So many names: a letter and a number."""
    return each(letter + '%d', count)


def domain(*sections):
    return '(define (domain d)\n' + '\n'.join(sections) + ')\n'


def problem(*sections):
    return '(define (problem q) (:domain d)\n' + '\n'.join(sections) + ')\n'


def family(sizes, command='compile'):
    """Notes a function that gives the texts of a size, by the names of their files."""

    def noted(make):
        FAMILIES[make.__name__] = (make, sizes, command)
        return make

    return noted


ONE_ATOM = '(:predicates (p))'
ONE_ACTION = '(:action a :effect (p))'
NO_GOAL = problem('(:init)', '(:goal ())')
