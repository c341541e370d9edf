"""How the proofs of krb_show_row_laws have a SEQUENCE: as a codec, which is its fields, the way to
them and back, the tie to its row, its octets in the words of ASN.1, and its values; and as a
reader, which is its fields as its impl groups them, with the tie of its first error to its row.
"""

# Codecs of elements without elements: the leaves that have it, its octets, its values.
LEAVES = {
    "truth": ("Truth", "boolean", "IsAny"),
    "integer": ("Integer Number Microseconds", "integer_octets", "IsAny"),
    "unsigned": ("Unsigned", "unsigned_octets", "IsUnsigned"),
    "bits": ("Bits Flags", "bit_string", "IsBits"),
    "octets": ("Octets Secret Cipher", "octet_string", "IsOctets"),
    "identifier": ("Identifier", "object_identifier", "IsArcs"),
    "time": ("Time", "generalized_time", "IsRealTime"),
    "text": ("Text Component", "general_string", "IsAscii"),
}

# A codec, @.
CODEC = """\
-- ---- {title}

abbrev pub @_fields : Codec
@_fields = tagged 48 {fields}

abbrev pub @_to : {type} → (@_fields).value
@_to v = {to}

abbrev pub @_of : (@_fields).value → {type}
@_of x = {of}

abbrev pub @ : Codec
@ = coded @_fields @_to

pub @_tie : (schema : Schema) (k : IsKerberos schema) (levels : ℕ) → Tie schema k {depth} {row} @
unfolding cases fields shapes
@_tie schema k levels =
    coded_tie schema k {depth} {row} @_fields @_to @_of (λ x. refl)
    (sequence_tie schema k {depth_of_fields} {row} 48 {first} {count} _ _ refl (lit≤ tt) refl
{ties}

abbrev pub @_octets : {type} → List ℕ
@_octets v = sequence ({octets})

{lemma}pub @_same : (v : {type}) → @_octets v ≡ @.enc v
@_same v ={same}

abbrev pub @_value : {type} → Type 0
@_value v = {value}

pub @_valid : (v : {type}) → @_value v → @.valid v
@_valid v h = {valid}

pub @_right : (v : {type}) → @.valid v → @_value v
@_right v h = {right}
"""

UNDER_TAG = """
-- under its tag

abbrev pub tagged_@_octets : {type} → List ℕ
tagged_@_octets v = tlv {tag} (@_octets v)

abbrev pub tagged_@_value : {type} → Type 0
tagged_@_value v = @_value v × ({number} ≤ 30)
"""

LEMMA = """\
@_in_a_row : ({names} : List ℕ) → {grouped} ≡ {chained}
@_in_a_row {names} = simp append_assoc refl

"""

SAME = """
{lines}
    let whole : @_octets v ≡ tlv 48 ({chained}) =
    rw ({names}) ({how}) in
    whole ∙ ap (λ (o : List ℕ). tlv 48 ({but_last})) (sym (append-nil ({last})))"""


# The reader of a codec, @.
READER = """\
-- ---- {title}

abbrev pub @_read : Fields
@_read = {fields}

abbrev pub @_parts : {type} → (@_read).value
@_parts v = {parts}

abbrev pub @_reader : Reader
@_reader = sequence @_read @_parts

pub @_refused : (schema : Schema) (k : IsKerberos schema) (levels : ℕ) → FaultTie schema k {depth} {row} @_reader
unfolding cases fields shapes
@_refused schema k levels =
    sequence_refused schema k {depth_of_fields} {row} {first} {count} _ @_read @_parts @ (λ x. x) refl (lit≤ tt) refl
    (@_tie schema k levels) @_right @_same
{ties}
"""

# How proofs begin a line within an answer, and how many characters are too many for one.
NEXT, LONG = "\n    ", 110

# How fields in order are called, by their number.
IN_ORDER = ["", "", "pair", "triple", "four", "five", "six"]


class NoRule(Exception):
    """A proof follows by no rule that is here."""


# ---- what fields hold


def sucs(count):
    """How a codec says its levels."""
    return f"(suc {sucs(count - 1)})" if count else "levels"


class Content:
    """What a field, a tag or a list holds: its codec, the word for its octets, what its values
    are, how many levels it has, and the SEQUENCEs in it. `left` levels are left where its tie
    stands; `say` is how a number of levels is said there."""

    structs = ()

    def __init__(self, row, codec, word, value, depth):
        self.row, self.codec, self.word, self.value, self.depth = row, codec, word, value, depth

    def octets(self, v):
        return f"{self.word} {v}"

    def reader(self):
        """What reads it."""
        return self.codec

    def same(self, v):
        """Why its octets are those of its codec, where the two are not one text."""
        return ""

    def valid(self, v, h):
        """That the codec has v, of h, that v is a value."""
        return h

    def right(self, v, h):
        """That v is a value, of h, that the codec has it."""
        return h


class Leaf(Content):
    """An element without elements that are read: its tie, and what this is given."""

    def __init__(self, row, codec, word, value, tie, given="refl"):
        super().__init__(row, codec, word, value, 1)
        self.word_of_tie, self.given = tie, given

    def tie(self, left, say):
        return f"{self.word_of_tie} schema k {say(left - 1)} {self.row} {self.given}"

    def refused(self, left, say):
        """That its fault is the first error of what reads it, as `tie`."""
        return self.tie(left, say).replace("_tie ", "_refused ", 1)


class Under(Leaf):
    """An OCTET STRING under a tag in place of its own."""

    def __init__(self, row, tag):
        codec, word = f"(octets_under {tag})", f"implicit {tag - 128}"
        super().__init__(row, codec, word, "IsUnder", "octets_under_tie", f"{tag} refl")

    def valid(self, v, h):
        return f"{h}.0"

    def right(self, v, h):
        return f"({h}, refl)"


class Anything(Leaf):
    """Any element."""

    def __init__(self, row):
        super().__init__(row, "any", "", "(IsDer is_raw_first)", "any_tie")

    def octets(self, v):
        return v


class Tagged(Content):
    """A SEQUENCE under an application tag."""

    def __init__(self, row, tag, inner):
        if not isinstance(inner, Struct) or tag not in range(96, 127):
            raise NoRule(f"row {row} is no SEQUENCE under an application tag")
        words = f"tagged_{inner.codec}_octets", f"tagged_{inner.codec}_value"
        super().__init__(row, f"(tagged {tag} {inner.codec})", *words, inner.depth + 1)
        self.tag, self.inner, self.structs = tag, inner, inner.structs

    def tie(self, left, say):
        about = f"{say(left - 1)} {self.row} {self.tag} {self.inner.row}"
        return f"tagged_tie schema k {about} _ refl ({self.inner.tie(left - 1, say)})"

    def reader(self):
        return f"(application {self.tag - 96} {self.inner.reader()})"

    def refused(self, left, say):
        about = f"{say(left - 1)} {self.row} {self.tag - 96} {self.inner.row}"
        why = "refl (lit≤ tt) refl"
        inner = self.inner.refused(left - 1, say)
        return f"application_refused schema k {about} _ {why} ({inner})"

    def same(self, v):
        return f"(ap (tlv {self.tag}) {self.inner.same(v)})"

    def valid(self, v, h):
        return self.inner.valid(v, f"{h}.0")

    def right(self, v, h):
        return f"({self.inner.right(v, h)}, lit≤ tt)"

    def answers(self):
        name = self.inner.codec
        same = f"λ v. ap (tlv {self.tag}) ({name}_same v)"
        return same, f"λ v h. {name}_valid v h.0", f"λ v h. ({name}_right v h, lit≤ tt)"


class ListOf(Content):
    """A SEQUENCE OF; whether it should not be empty."""

    def __init__(self, row, inner, is_some):
        words = f"(asn1_sequence_of {inner.word})", f"(AllByRecursion {inner.value})"
        super().__init__(row, f"(sequence_of {inner.codec})", *words, inner.depth + 1)
        self.inner, self.is_some, self.structs = inner, is_some, inner.structs

    def tie(self, left, say):
        about = f"{say(left - 1)} {self.row} {self.inner.row} {self.is_some}"
        return f"list_tie schema k {about} _ refl ({self.inner.tie(left - 1, say)})"

    def reader(self):
        return f"(sequence_of {self.inner.reader()})"

    def refused(self, left, say):
        about = f"{say(left - 1)} {self.row} {self.inner.row} {self.is_some}"
        inner = self.inner.refused(left - 1, say)
        return f"list_refused schema k {about} _ refl ({inner})"

    def same(self, v):
        inner = self.inner.same("x0")
        return inner and f"(ap (tlv 48) (flat_map_same (λ x0. {inner}) {v}))"

    def valid(self, v, h):
        inner, codec = self.inner.valid("x0", "k0"), f"{self.inner.codec}.valid"
        return h if inner == "k0" else all_as(self.inner.value, codec, inner, v, h)

    def right(self, v, h):
        inner, codec = self.inner.right("x0", "k0"), f"{self.inner.codec}.valid"
        return h if inner == "k0" else all_as(codec, self.inner.value, inner, v, h)

    def answers(self):
        if not isinstance(self.inner, Struct):
            raise NoRule(f"row {self.row} is no list of SEQUENCEs")
        name = self.inner.codec
        same = f"λ xs. ap (tlv 48) (flat_map_same {name}_same xs)"
        return same, f"all_as {name}_valid", f"all_as {name}_right"


def all_as(one, other, why, v, h):
    return f"(all_as {{P = {one}}} {{Q = {other}}} (λ x0 k0. {why}) {v} {h})"


def some_as(one, other, why, v, h):
    return f"(some_as {{P = {one}}} {{Q = {other}}} (λ y k. {why}) {v} {h})"


class Field:
    """A field of a SEQUENCE: its first octet, whether this is an explicit tag, whether it may be
    absent, what it holds, and its name in Rust."""

    def __init__(self, tag, is_tagged, is_optional, content, name):
        self.tag, self.is_tagged, self.is_optional = tag, is_tagged, is_optional
        self.content, self.name = content, name
        self.v = f"v.{name}.0" if is_optional else f"v.{name}"
        self.word = "maybe" if is_optional else "required"
        if not is_tagged:
            self.word = "maybe_bare" if is_optional else "bare"

    def codec(self):
        head = f"{self.word} {self.tag}" if self.is_tagged else self.word
        return f"{head} {self.content.codec}"

    def of(self, x):
        """The field, where its value in the codec is x."""
        return f"record {{ 0 = {x} }}" if self.is_optional else x

    def tie(self, left, is_last):
        inner = f"({self.content.tie(left, sucs)})"
        if isinstance(self.content, Anything) and not self.is_tagged:
            if not (self.is_optional and is_last):
                raise NoRule(f"{self.name}: ANY by itself has to be last, and OPTIONAL")
            return f"last_any_tie schema k _ _ _ _ _ _ any_begins {inner}"
        why = " refl" if self.is_optional else ""
        why += "" if self.is_tagged else " (λ x v. tlv_begins _ _)"
        return f"{self.word}_tie schema k _ _ _ _ _ _ _ _ _{why} {inner}"

    def reader(self):
        inner = self.content.reader()
        inner = f"(explicit {self.tag} {inner})" if self.is_tagged else inner
        return f"{'maybe' if self.is_optional else 'one'} {inner}"

    def refused(self, left):
        """That the fault of the field, or of what is behind it, is the first error, as `tie`."""
        why = "" if self.is_tagged else " (λ t. refl)"
        inner = self.content.refused(left, sucs)
        return f"{self.word}_refused schema k _ _ _ _ _ _ _ _{why} ({inner})"

    def each(self, text):
        """The text of v, of each value where the field may be absent."""
        return f"optional (λ x. {text('x')}) {self.v}" if self.is_optional else text(self.v)

    def octets(self):
        inner, head = self.content.octets, f"explicit {self.tag - 160}" if self.is_tagged else ""
        return self.each((lambda v: f"{head} ({inner(v)})") if head else inner)

    def enc(self):
        enc = f"{self.content.codec}.enc"
        if self.is_tagged:
            return self.each(lambda v: f"tlv {self.tag} ({enc} {v})")
        return f"optional ({enc}) {self.v}" if self.is_optional else f"{enc} {self.v}"

    def same(self):
        if not self.is_optional:
            return self.content.same(self.v)
        inner = self.content.same("y")
        tagged = f"ap (tlv {self.tag}) {inner}" if self.is_tagged else inner
        return inner and f"optional_same (λ y. {tagged}) {self.v}"

    def value(self):
        value = self.content.value
        return f"IfSome {self.v} {value}" if self.is_optional else f"{value} {self.v}"

    def valid(self, h):
        if not self.is_optional:
            return self.content.valid(self.v, h)
        inner, codec = self.content.valid("y", "k"), f"{self.content.codec}.valid"
        return h if inner == "k" else some_as(self.content.value, codec, inner, self.v, h)

    def right(self, h):
        if not self.is_optional:
            return self.content.right(self.v, h)
        inner, codec = self.content.right("y", "k"), f"{self.content.codec}.valid"
        return h if inner == "k" else some_as(codec, self.content.value, inner, self.v, h)


# ---- a SEQUENCE


def chained(parts):
    """Parts in a row, each with all behind it."""
    text = parts[-1]
    for at, part in enumerate(reversed(parts[:-1])):
        text = f"{part} ++ ({text})" if at else f"{part} ++ {text}"
    return text


def nested(heads, sign, end):
    """The heads, each around all behind it."""
    for head in reversed(heads):
        end = f"({head}{sign} {end})"
    return end


class Struct(Content):
    """A SEQUENCE: its codec, what stands above it, its type, the place of its first field, and its
    fields in the groups of its `impl Sequence`. `tag` is the application tag that fields have it
    in, if any do."""

    def __init__(self, row, codec, title, type_of, first, groups):
        self.fields = [field for group in groups for field in group]
        depth = 1 + max(field.content.depth for field in self.fields)
        super().__init__(row, codec, f"{codec}_octets", f"{codec}_value", depth)
        self.title, self.type, self.first, self.groups = title, type_of, first, groups
        self.structs, self.tag = (self,), None

    def needs(self):
        return {it for field in self.fields for it in field.content.structs}

    def tie(self, left, say):
        return f"{self.codec}_tie schema k {say(left - self.depth)}"

    def same(self, v):
        return f"({self.codec}_same {v})"

    def valid(self, v, h):
        return f"({self.codec}_valid {v} {h})"

    def right(self, v, h):
        return f"({self.codec}_right {v} {h})"

    def reader(self):
        return f"{self.codec}_reader"

    def refused(self, left, say):
        return f"{self.codec}_refused schema k {say(left - self.depth)}"

    def answers(self):
        return f"{self.codec}_same", f"{self.codec}_valid", f"{self.codec}_right"

    def grouped(self, parts, sign):
        """Parts, one a field, in the groups of the fields."""
        parts = iter(parts)
        groups = [sign.join(next(parts) for _ in group) for group in self.groups]
        return groups[0] if len(groups) == 1 else sign.join(f"({group})" for group in groups)

    def of(self, places):
        """The value, where the codec has those of its fields at these places."""
        values = [field.of(x) for field, x in zip(self.fields, places)]
        if self.fields[0].name.isdigit():
            return f"({', '.join(values)})"
        named = "; ".join(f"{field.name} = {x}" for field, x in zip(self.fields, values))
        return f"record {{ {named} }}"

    def ties(self):
        last = len(self.fields) - 1
        lines = [it.tie(self.depth - 1, at == last) for at, it in enumerate(self.fields)]
        lines.append(f"end_tie schema k _{')' * (last + 3)}")
        return "\n".join(f"    ({line}" for line in lines)

    def proofs(self):
        """Where the proof that a value is one has those of its fields."""
        if len(self.fields) == 1:
            return ["h"]
        if len(self.groups) == 1:
            return [f"h.{at}" for at in range(len(self.fields))]
        return [f"h.{it}.{at}" for it, group in enumerate(self.groups) for at in range(len(group))]

    def has_lemma(self):
        """Whether a lemma puts the octets in a row: `simp` would go into a list of SEQUENCEs that
        always stands."""
        lists = [it.content for it in self.fields if not it.is_optional]
        in_lists = [it.inner for it in lists if isinstance(it, ListOf)]
        return len(self.fields) > 2 and any(isinstance(it, Struct) for it in in_lists)

    def lemma(self):
        names = [f"a{at}" for at in range(len(self.fields))]
        return LEMMA.format(
            names=" ".join(names),
            grouped=self.grouped(names, " ++ "),
            chained=chained(names),
        )

    def sameness(self):
        """Why the octets in the words of ASN.1 are those of the codec."""
        sames = {f"e{at}": why for at, it in enumerate(self.fields) if (why := it.same())}
        encs, is_long = [it.enc() for it in self.fields], len(self.fields) > 2
        if not sames:
            # (the octets of a time are in a row themselves)
            is_long = is_long or any(it.content.codec == "time" for it in self.fields)
            return f" simp ({'append_assoc, ' if is_long else ''}append-nil) refl"
        how = "simp append_assoc refl" if is_long else "refl"
        if self.has_lemma():
            how = f"ap (tlv 48) (@_in_a_row {' '.join(f'({it})' for it in encs)})"
        return SAME.format(
            lines="\n".join(f"    let {name} = {why} in" for name, why in sames.items()),
            names=", ".join(sames),
            how=how,
            chained=chained(encs),
            but_last=chained([*encs[:-1], "o"]),
            last=encs[-1],
        )

    def heading(self):
        """What the type and its row are called, and how deep they are: in both texts."""
        return {
            "title": self.title,
            "type": self.type,
            "row": self.row,
            "first": self.first,
            "count": len(self.fields),
            "depth": sucs(self.depth),
            "depth_of_fields": sucs(self.depth - 1),
        }

    def text(self):
        places = [f"x{'.1' * at}.0" for at in range(len(self.fields))]
        rights = [it.right(f"h{x[1:]}") for it, x in zip(self.fields, places)]
        right = self.grouped(rights, ", ")
        text = CODEC.format(
            **self.heading(),
            fields=nested([it.codec() for it in self.fields], "", "end"),
            to=nested([it.v for it in self.fields], ",", "tt"),
            of=self.of(places),
            ties=self.ties(),
            octets=self.grouped([it.octets() for it in self.fields], " ++ "),
            lemma=self.lemma() if self.has_lemma() else "",
            same=self.sameness(),
            value=self.grouped([it.value() for it in self.fields], " × "),
            valid=nested([it.valid(h) for it, h in zip(self.fields, self.proofs())], ",", "tt"),
            right=right if len(self.fields) == 1 else f"({right})",
        )
        if self.tag:
            text += UNDER_TAG.format(type=self.type, tag=self.tag, number=self.tag - 96)
        return text.replace("@", self.codec)

    def in_order(self, parts, words, sign):
        """Parts, one a field, in tuples as the fields' types are, each behind a word by how many it
        has."""
        parts = iter(parts)
        groups = [[next(parts) for _ in group] for group in self.groups]
        rows = [sign.join([words[len(it)], *it] if len(it) > 1 else it) for it in groups]
        if len(rows) == 1:
            return rows[0]
        return sign.join([words[len(rows)], *(f"({it})" for it in rows)])

    def reader_text(self):
        """What reads it, and that its first error is that of its row."""
        fields = [it.reader() for it in self.fields]
        names = [f"v.{it.name}" for it in self.fields]
        ties = [it.refused(self.depth - 1) for it in self.fields]
        if len(self.fields) > 1:
            fields, ties = [f"({it})" for it in fields], [f"({it})" for it in ties]
        blanks = [f"{it}_refused schema k _{' _' * (2 * at + 1)}" for at, it in enumerate(IN_ORDER)]
        sign = " " if sum(map(len, fields)) < LONG else NEXT
        text = READER.format(
            **self.heading(),
            fields=self.in_order(fields, IN_ORDER, sign),
            parts=names[0] if len(names) == 1 else f"({self.grouped(names, ', ')})",
            ties=f"    ({self.in_order(ties, blanks, NEXT)})",
        )
        return text.replace("@", self.codec)
