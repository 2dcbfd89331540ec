"""Random states of the machine, made so that each action comes to most of its ends."""

REGION_BYTES = 65536
MOST_HEADERS = REGION_BYTES // 64
ALL_BITS = 2**64 - 1
STACK_ITEMS = 4096
FORTH_WORDLIST, NEWEST_WORDLIST, LAST_HEADER, HEADERS = 240, 256, 11712, 4096
SCRATCH = range(11984, 12080, 8)
TEXT = 520
PLACES = [*range(12000, 12040, 8), 0, 8, 16, 72, 240, 256, 296, 512, 514, 520, 4096, 4144, 4656, 11712, 11760]
DICTIONARY_ENDS = [4088, 4096, 11776, 11777, 11784, 12040]
SPACES_LEFT = [0, 3, 8, 16, 24, 32, 40, 64, 72, 128]
SMALL_NUMBERS = [0, 0, 1, 1, 2, 3, 4, 5, 6, 7, 8, 10, 16, 17, 32, 34, 63, 64, 65, 255, 256, 300, 512]
BELOW_ZERO = [0, 0, 1, 2, 9, 100, 2**63]
SOURCE_WORDS = ["DUP", "swap", "THEN", ";", "x", "12", "$ff", "'a'", "-7", 'zz"z', "(DOVAR)", "", "V", "(DOCON)"]
SOURCE_WORDS += [31 * "b", 32 * "a"]
SOUGHT_TEXT, SOUGHT_NAMES = "DUP if THEN xyz", [(0, 3), (4, 2), (7, 4), (12, 3), (0, 0)]
ESCAPES = [rf"\{letter}" for letter in 'abeflmnqrtvz"\\'] + [r"\x4f", r"\xFf"]
ESCAPES += ["abc", "7", " ", r"\x4", r"\y", '"', "\\"]

# the kinds of the control items that a word takes, from the top, each with an address below it
CONTROL_KINDS = {
    "ELSE": [1],
    "THEN": [1],
    "AGAIN": [2],
    "UNTIL": [2],
    "WHILE": [2],
    "REPEAT": [2, 1],
    "LOOP": [3],
    "+LOOP": [3],
    "OF": [4],
    "ENDOF": [5, 4],
    "ENDCASE": [4],
    ";": [6],
}


class RandomState:
    """A machine of the model in a random state, in which a token of a word is to run."""

    def __init__(self, model, seed, random, word):
        self.layout = model.machine
        self.machine = seed.clone()
        self.random = random
        self.chance = lambda share: random.random() < share
        self.fill_region()
        self.fill_stacks()
        self.fill_source(self.source_text())
        self.token = self.address_of(random.choice(SCRATCH)) if self.chance(0.95) else self.cell()
        self.prepare_for(word)

    def prepare_for(self, word):
        """Makes the state mostly one that the word can use."""
        makers = {
            "(DOMARKER)": lambda: MarkedDictionary(self).lay(),
            "(THROW)": lambda: self.put_items(self.random.choice([0, 0, 1, ALL_BITS])),
            "ACCEPT": lambda: self.put_items(self.address(), self.count()),
            "MOVE": lambda: self.put_items(self.address(), self.address(), self.count()),
            "FILL": lambda: self.put_items(self.address(), self.count(), self.cell()),
            "UM/MOD": self.put_division,
            "SM/REM": self.put_division,
            "FM/MOD": self.put_division,
            ">NUMBER": self.put_digits,
            "(FIND)": lambda: self.put_sought_name(),
            "SEARCH-WORDLIST": lambda: self.put_sought_name(self.address_of(FORTH_WORDLIST)),
            ">BODY": self.put_created_word,
            "(DOES)": self.put_latest,
            "(HEADER)": self.put_tag,
            'S"': lambda: self.fill_source(self.escaped_text()),
            'S\\"': lambda: self.fill_source(self.escaped_text()),
            "TO": lambda: self.fill_source("(DOVALUE)"),
            "IS": lambda: self.fill_source("(DODEFER)"),
        }
        if word in CONTROL_KINDS:
            self.put_kinds(CONTROL_KINDS[word])
        elif word in makers and self.chance(0.7):
            makers[word]()

    # cells

    def address_of(self, offset):
        return self.machine.a.region_cell(offset)

    def put(self, offset, *cells):
        """Stores cells at an offset and behind it."""
        for index, cell in enumerate(cells):
            self.machine.put(offset + 8 * index, cell)

    def address(self):
        """The address of a place that matters, or of any."""
        offset = self.random.choice(PLACES) if self.chance(0.8) else self.random.randrange(REGION_BYTES + 1)
        return self.address_of(offset)

    def unclear_cell(self):
        """A sum of two addresses, or an address negated: neither a number nor an address for most arithmetics."""
        arithmetic = self.machine.a
        if self.chance(0.5):
            return arithmetic.negate(self.address_of(8))
        return arithmetic.add(self.address_of(0), self.address_of(0))

    def cell(self):
        """An address, a count, a token, or any number."""
        kinds = [
            (50, self.address),
            (25, self.count),
            (5, lambda: self.machine.a.code_cell(self.random.randrange(130))),
            (10, lambda: ALL_BITS - self.random.choice(BELOW_ZERO)),
            (5, lambda: self.random.randrange(2**64)),
            (5, self.unclear_cell),
        ]
        shares, makers = zip(*kinds)
        return self.random.choices(makers, shares)[0]()

    def cell_or(self, *usual):
        """Mostly one of these cells."""
        return self.random.choice(usual) if self.chance(0.85) else self.cell()

    # the region

    def fill_region(self):
        """Fills the system cells and the first cells of the dictionary."""
        layout, random, forth = self.layout, self.random, self.address_of(FORTH_WORDLIST)
        ends = DICTIONARY_ENDS + [REGION_BYTES - space for space in SPACES_LEFT]
        self.put(layout.DP, self.address_of(random.choice(ends)) if self.chance(0.9) else self.cell())
        self.put(layout.BASE, self.cell_or(1, 2, 10, 10, 16, 36, 37))
        self.put(layout.STATE, self.cell_or(0, 0, 1, ALL_BITS))
        self.put(layout.SNUM, self.cell_or(0, 0, 1, ALL_BITS))
        self.put(layout.LEAVES, self.random.choice([0, 1, self.cell()]))
        self.put(layout.TURN, self.cell_or(0, 1))
        if self.chance(0.3):
            self.put(layout.CURRENT, self.cell_or(forth))
        if self.chance(0.3):
            self.put(layout.LATEST, self.cell_or(self.address_of(LAST_HEADER), self.address_of(SCRATCH[4])))
        self.put(layout.COUNT, self.cell_or(1, 1, 1, 1, 1, 2, 3, random.choice([0, 16, 17])))
        self.put(layout.ORDER, *(self.cell_or(forth, forth) for _ in range(random.choice([1, 1, 2, 16]))))
        self.put(SCRATCH[0], *(self.scratch_cell() for _ in SCRATCH))
        self.machine.ip = self.cell_or(*map(self.address_of, (264, 12000, 12008)))

    def scratch_cell(self):
        """A link, a token of a defined word's code, or any cell."""
        code = self.machine.a.code_cell(self.random.choice([2, 3, 4, 5, 6]))
        return self.cell_or(0, self.address(), self.address(), self.address_of(SCRATCH[2]), code)

    def fill_stacks(self):
        machine, random = self.machine, self.random
        machine.ds = [self.cell() for _ in range(random.choice([0, 1, 2, 3, 4, 4, 5, 6, 8, 18]))]
        machine.rs = [self.cell() for _ in range(random.choice([0, 1, 2, 3, 3, 5, 6]))]
        if machine.ds and self.chance(0.3):
            machine.ds[-1] = random.choice([0, 1, 2, 3, 6, 16, 17, ALL_BITS])
        for stack in (machine.ds, machine.rs):
            if self.chance(0.05):
                stack[:0] = [3] * (STACK_ITEMS - len(stack) - random.randrange(6))

    def count(self):
        return self.random.choice(SMALL_NUMBERS)

    def put_items(self, *items):
        """These items on top of the stack, in the place of others."""
        self.machine.ds[-len(items) :] = items

    def put_division(self):
        """A double that is mostly small, of either sign, and a number that it is divided by."""
        low, high = self.random.randrange(2**64), self.random.choice([0, 1, 5, ALL_BITS, ALL_BITS - 5])
        by = self.random.choice([0, 1, 2, 7, 10, 2**63, 2**64 - 1, 2**64 - 7, self.random.randrange(2**64)])
        self.put_items(low, high, by)

    def put_kinds(self, kinds):
        """The kinds of control items on the stack, where it has the items."""
        for index, kind in enumerate(kinds):
            position = 2 * index + 1
            if self.chance(0.9) and position <= len(self.machine.ds):
                self.machine.ds[-position] = kind

    # texts

    def source_text(self):
        return " ".join(self.random.choice(SOURCE_WORDS) for _ in range(self.random.choice([0, 1, 1, 2, 2, 3])))

    def escaped_text(self):
        pieces = ESCAPES[: self.random.choice([len(ESCAPES) - 4, len(ESCAPES)])]
        text = "".join(self.random.choice(pieces) for _ in range(self.random.choice([0, 2, 5, 9, 30])))
        longer = 512 * "x" if self.chance(0.05) else ""
        return longer + text + self.random.choice(['"', "", '" tail', '"\\'])

    def fill_source(self, text):
        """The text is the source, mostly all of it, and now and then with a byte in it that isn't plain."""
        layout, random = self.layout, self.random
        self.machine.put_bytes(layout.LINE, text.encode())
        length = self.random.choice([REGION_BYTES, self.cell()]) if self.chance(0.1) else len(text)
        self.put(layout.SLEN, length)
        self.put(layout.IN, random.choice([0, 0, 0, 0, 0, 0, 2, len(text) + 3]))
        self.put(layout.SADDR, self.address_of(layout.LINE) if self.chance(0.95) else self.cell())
        if self.chance(0.1) and isinstance(self.address_of(0), tuple):
            offset = random.choice([16, 40, 104, 512, 515, 520, 12001])
            self.machine.put_byte(offset, (self.address_of(8), random.choice([0, 3])))

    def put_sought_name(self, *wordlist):
        """A name on the stack that is looked up, with a wordlist or none behind it."""
        self.machine.put_bytes(TEXT, SOUGHT_TEXT.encode())
        begin, length = self.random.choice(SOUGHT_NAMES)
        self.put_items(self.address_of(TEXT + begin), length, *wordlist)

    def put_digits(self):
        """A number and a text with digits on the stack."""
        self.machine.put_bytes(TEXT, b"1234zZ9 77")
        low, high = self.random.choice([0, 5, ALL_BITS]), self.random.choice([0, 0, ALL_BITS])
        self.put_items(low, high, self.address_of(TEXT), self.random.choice([0, 4, 10]))

    # words

    def put_created_word(self):
        """The token of a word that CREATE made, or made otherwise, on the stack."""
        self.put(SCRATCH[2], self.machine.a.code_cell(self.random.choice([2, 2, 3, 6, 6])))
        self.put_items(self.address_of(SCRATCH[2]))

    def put_latest(self):
        """The last header is that of a word that CREATE made, or made otherwise."""
        self.put(LAST_HEADER + 48, self.machine.a.code_cell(self.random.choice([2, 2, 3, 6])))
        self.put(self.layout.LATEST, self.address_of(LAST_HEADER))

    def put_tag(self):
        """A number on the stack that is mostly the tag of code for defined words."""
        self.put_items(self.random.randrange(9))


class MarkedDictionary:
    """A marker's body, and wordlists and headers before and after the end that the marker goes back to."""

    TOKEN = 12064
    BODY = TOKEN + 16
    SAVED_ORDER = range(BODY + 24, BODY + 24 + 136, 8)
    OLD_WORDLISTS = [5000, 4992, 4984, 4976, 4968, 4960, 256, 240, 232]

    def __init__(self, state):
        self.state = state
        self.random = state.random
        self.old_end = self.random.choice([12000, 12000, 12000, 12004, 4096, 4095, 11776])

    def lay(self):
        """Lays all of it; the marker's token is the one that runs."""
        state = self.state
        state.token = state.address_of(self.TOKEN)
        state.put(self.BODY, state.address_of(self.old_end), state.address_of(1), state.address_of(2))
        state.put(self.SAVED_ORDER[0], *(self.random.choice([0, 5, state.address()]) for _ in self.SAVED_ORDER))
        wordlists = self.wordlists()
        heads = self.lay_headers()
        for wordlist, following in zip(wordlists, [*wordlists[1:], None]):
            last = self.random.choice([0, 0, 0, 0, 7, state.address_of(wordlist)])
            link = last if following is None else state.address_of(following)
            state.put(wordlist, self.random.choice(heads), link)
        if state.chance(0.9):
            state.put(NEWEST_WORDLIST, state.address_of(wordlists[0]))

    def wordlists(self):
        """The offsets of the wordlists, the newest first: some above the old end, and some below it."""
        newer = [13000 + 16 * index for index in reversed(range(self.random.randrange(4)))]
        older = [self.random.choice(self.OLD_WORDLISTS)]
        while self.state.chance(0.6) and len(older) < 5:
            lower = older[-1] - self.random.choice([0, 8, 16, 16, 16, 24, 64])
            older.append(max(lower, 232))
        return newer + older

    def lay_headers(self):
        """Lays a chain of headers that begins above the old end; gives what the heads of wordlists may be."""
        address_of = self.state.address_of
        count = self.random.choice([0, 1, 2, 3, 5, MOST_HEADERS + self.random.randrange(-2, 3)])
        offsets = range(14000 + 8 * count, 14000, -8)
        ends = [LAST_HEADER, HEADERS, 13000, self.old_end - 8, self.old_end]
        before = self.random.choice([0, *map(address_of, ends)])
        links = [address_of(offset) for offset in offsets[1:]] + [before]
        for offset, link in zip(offsets, links):
            self.state.put(offset, link)
        return [before, *(address_of(offset) for offset in offsets[:3])]
