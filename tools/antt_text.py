"""Python values as the checker's terms."""


class Statement:
    """One run: what the specs file says of it, its fact's name, and the proof."""

    def __init__(self, name, specs, proof, wrong=None, uses=(), lemmas=(), has=()):
        self.name = name
        self.specs = specs
        self.proof = proof
        self.wrong = wrong      # the same with a wrong number, where one was made
        self.uses = list(uses)  # what the proof names beside the fact
        self.lemmas = list(lemmas)  # (name, fact, proof) of what the proof rests on
        self.has = set(has)     # branches that it takes, and other things for which a run is chosen

    def size(self):
        return len(self.specs)


def flag(value):
    return 'true' if value else 'false'


def listed(terms):
    terms = list(terms)
    return '(' + ' ∷ '.join(terms + ['[]']) + ')' if terms else '[]'


def octets(values):
    """A list of bytes, in which long runs of one byte are written as such."""
    values = bytes(values)
    parts, plain, i = [], [], 0
    while i < len(values):
        j = i
        while j < len(values) and values[j] == values[i]:
            j += 1
        if j - i > 8:
            if plain:
                parts.append(listed(plain))
                plain = []
            parts.append(f'replicate {j - i} {values[i]}')
        else:
            plain += [str(value) for value in values[i:j]]
        i = j
    if plain or not parts:
        parts.append(listed(plain))
    return parts[0] if len(parts) == 1 and parts[0] == '[]' else '(' + ' ++ '.join(parts) + ')'


def record(**fields):
    return 'record { ' + '; '.join(f'{name} = {value}' for name, value in fields.items()) + ' }'


def nested(terms):
    """The terms as a tuple that a fact by recursion on a list computes to."""
    terms = list(terms)
    return ''.join(f'({term}, ' for term in terms) + 'tt' + ')' * len(terms)
