"""The proofs of krb_show_row_laws that a row is its type's, for docs/schema.

A law `rows_of_..` of its src/laws.rt has a clause a type, which names the type and its row. All
else follows: the row says which fields there are and what they hold, and the type's `impl Sequence`
what Rust calls them and how it groups them. So a new type needs its clause, and no line here. FILES
has a line a law: the file with the codecs of its types, beside the answers to its clauses. READS
has one, too: the file with what reads these types, and their first errors.
docs/sequences.py says how a SEQUENCE is written.
"""

import collections
import re
from pathlib import Path

from sequences import LEAVES, Anything, Field, Leaf, ListOf, NoRule, Struct, Tagged, Under

TOP = Path(__file__).resolve().parent.parent
CRATE = TOP / "crates" / "krb_show_row_laws"
LAWS = CRATE / "src" / "laws.rt"
NAMED_TYPES = TOP / "crates" / "krb_show_pages" / "src" / "types.rt"
PROOFS = "Rattle.krb_show_row_laws.proofs"
# The type that is named and has no row, but one an alternative: a law of its own is of it.
CHOICE = "PA-PK-AS-REP"
# How many levels the laws walk (specs/Ties.antt).
LEVELS = 64
# The file of each law, and what its first line says.
FILES = {
    "rows_of_data_types": ("DataTypeRows", "Data types as codecs, and their rows."),
    "rows_of_parts": ("PartRows", "Encrypted parts as codecs, and their rows."),
    "rows_of_messages": ("MessageRows", "Messages as codecs, and their rows."),
    "rows_of_certificates": (
        "CertificateRows",
        "Types of PKINIT, PKU2U and CredSSP as codecs, and their rows.",
    ),
    "rows_of_public_keys": (
        "PublicKeyRows",
        "Types of PKINIT, PKU2U and X.509 as codecs, and their rows: those with fields by"
        " themselves, or in a tag in place of their own.",
    ),
}
# The file of what reads the types of a law, beside that of their codecs, and what its first line
# says.
READS = {
    "rows_of_data_types": ("DataTypeErrors", "Data types as readers"),
    "rows_of_parts": ("PartErrors", "Encrypted parts as readers"),
    "rows_of_messages": ("MessageErrors", "Messages as readers"),
    "rows_of_certificates": ("CertificateErrors", "Types of PKINIT, PKU2U and CredSSP as readers"),
    "rows_of_public_keys": ("PublicKeyErrors", "Types of PKINIT, PKU2U and X.509 as readers"),
}
# Two orders that follow from nothing, and stay as they were proved: what stands before a codec that
# does not need it, and what a file imports before the codecs of earlier rows.
STANDS_BEFORE = {"dh_auth_pack": "subject_public_key_info"}
IMPORTED_FIRST = {"PublicKeyRows": "pk_authenticator"}
# What files import where they name it: before their structs, and behind them.
USES = [
    (
        "Rattle.std.proofs.Common",
        "◌≡◌, ℕ, ℤ, suc, ◌≤◌, true, false, refl, sym, ap, ◌∙◌, List, ◌++◌, lit≤",
    ),
    ("Rattle.std.specs.List", "AllByRecursion"),
    ("Rattle.std.specs.Option", "IfSome"),
    ("Rattle.std.specs.Str", "IsAscii"),
    ("Rattle.std.proofs.lemmas.List", "append-nil, append_assoc"),
    (
        "Rattle.krb_der.specs.Asn1",
        "boolean, bit_string, explicit, general_string, generalized_time, octet_string, sequence",
    ),
    (
        "Rattle.krb_der.specs.Asn1",
        "integer as integer_octets, sequence_of as asn1_sequence_of",
    ),
    ("Rattle.krb_der_core.specs.BitString", "Bits, IsBits"),
    ("Rattle.krb_der_core.specs.Encoding", "IsElement as IsDer, IsOctets, optional"),
    ("Rattle.krb_der_core.specs.GeneralizedTime", "IsRealTime"),
    ("Rattle.krb_der_core.specs.Tlv", "tlv"),
    ("Rattle.krb_der_x509.specs.Implicit", "implicit"),
    ("Rattle.krb_der_x509.specs.ObjectIdentifier", "IsArcs, object_identifier"),
    ("Rattle.krb_der_x509.specs.RawValue", "is_raw_first"),
]
USES_BEHIND = [
    ("Rattle.krb_schema.specs.declared.shape.Schema", "Schema"),
    ("Rattle.krb_schema.specs.Named", "IsKerberos"),
    ("Rattle.krb_schema.specs.Types", "cases, fields, shapes"),
    (
        f"{PROOFS}.Codecs",
        "Codec, any, bare, bits, coded, end, identifier, integer, maybe, maybe_bare, octets,"
        " octets_under, required, sequence_of, tagged, text, time, truth, unsigned,"
        " unsigned_octets",
    ),
    (
        f"{PROOFS}.CodecRows",
        "IsAny, IsUnsigned, Tie, all_as, bits_tie, cipher_tie, coded_tie, component_tie, end_tie,"
        " flags_tie, flat_map_same, holding_tie, integer_tie, list_tie, maybe_tie,"
        " microseconds_tie, number_tie, octets_tie, optional_same, required_tie, secret_tie,"
        " sequence_tie, some_as, tagged_tie, text_tie, time_tie, truth_tie, unsigned_tie",
    ),
    (
        f"{PROOFS}.BareRows",
        "any_begins, any_tie, bare_tie, identifier_tie, last_any_tie, maybe_bare_tie,"
        " octets_under_tie, tlv_begins",
    ),
]
USES_OF_ANSWERS = [
    ("Rattle.std.proofs.Common", "refl, ap, codes, true, false, lit≤"),
    ("Rattle.krb_der_core.specs.Tlv", "tlv"),
    ("Rattle.krb_schema.specs.Types", "shapes, types"),
    (f"{PROOFS}.Codecs", "sequence_of, tagged"),
    (f"{PROOFS}.CodecRows", "all_as, flat_map_same, list_tie, tagged_tie"),
    (f"{PROOFS}.Readers", "application, sequence_of as list_of"),
    (f"{PROOFS}.FaultRows", "application_refused, list_refused"),
    (f"{PROOFS}.TiedTypes", "tied"),
]
USES_OF_READERS = [
    ("Rattle.std.proofs.Common", "ℕ, ℤ, suc, true, false, refl, List, lit≤"),
    ("Rattle.krb_der_core.specs.BitString", "Bits"),
]
USES_OF_READERS_BEHIND = [
    ("Rattle.krb_schema.specs.declared.shape.Schema", "Schema"),
    ("Rattle.krb_schema.specs.Named", "IsKerberos"),
    ("Rattle.krb_schema.specs.Types", "cases, fields, shapes"),
    (
        f"{PROOFS}.Readers",
        "Fields, Reader, any, application, bits, explicit, five, four, identifier, integer, maybe,"
        " octets, octets_under, one, pair, sequence, sequence_of, six, text, time, triple, truth,"
        " unsigned",
    ),
    (f"{PROOFS}.FaultRows", "FaultTie, application_refused, list_refused"),
    (
        f"{PROOFS}.FaultFields",
        "bare_refused, five_refused, four_refused, maybe_bare_refused, maybe_refused, pair_refused,"
        " required_refused, sequence_refused, six_refused, triple_refused",
    ),
    (
        f"{PROOFS}.FaultLeaves",
        "any_refused, bits_refused, cipher_refused, component_refused, flags_refused,"
        " holding_refused, identifier_refused, integer_refused, microseconds_refused,"
        " number_refused, octets_refused, octets_under_refused, secret_refused, text_refused,"
        " time_refused, truth_refused, unsigned_refused",
    ),
]
# What files import of a codec @.
IMPORTED = "tagged_@_octets tagged_@_value @ @_tie @_octets @_same @_value @_valid @_right".split()

UNDER = """\
-- as the words of a type with an IMPLICIT tag have it
abbrev pub IsUnder : List ℕ → Type 0
IsUnder v = IsOctets v × (tlv 4 v ≡ tlv 4 v)
"""

ANSWER = """\
pub returns-clause-{clause} : goal.returns-clause-{clause}
unfolding shapes types
returns-clause-{clause} c = tied {codec} (codes "{name}") {row} refl (λ schema k. {tie}) (record {{
  to = λ v. v;
  of = λ v. v;
  enc_to = {same};
  enc_of = {same};
  valid_to = {valid};
  valid_of = {right};
}}) (λ schema k. {refused})
"""

Clause = collections.namedtuple("Clause", "law name type row")
Declared = collections.namedtuple("Declared", "path fields value text")


# ---- what the sources have


def groups_of(text):
    """The names of fields, as `ghost fields` groups them; of a value that is a pair, none."""
    return [re.findall(r"\bv\.(\w+)", it) for it in re.findall(r"\(([^()]*)\)", text) or [text]]


class Sources:
    """The types of the crates that laws.rt uses: what aliases stand for, and structs."""

    FIELDS = re.compile(
        r"^impl(?:<[^>]*>)? Sequence for (\w+).*?^    ghost fields = \{ λ v\. (.*?) \};$",
        re.M | re.S,
    )
    MODEL = re.compile(r"^impl Model for (\w+) \{\s*ghost Value = \{ (.*) \};$", re.M)
    ALIAS = re.compile(r"^pub type (\w+) =\s+([^;]*);$", re.M)

    def __init__(self, crates):
        self.aliases, self.structs = {}, {}
        for crate in crates:
            folder = TOP / "crates" / crate / "src"
            for file in sorted(folder.rglob("*.rt")):
                module = ".".join(file.relative_to(folder).with_suffix("").parts)
                self.read(f"Rattle.{crate}.specs.declared.{module}", file.read_text("utf-8"))

    def read(self, module, text):
        """Takes the types of a module; the value of one with a `Model` is no struct."""
        values = dict(self.MODEL.findall(text))
        self.aliases.update(self.ALIAS.findall(text))
        for name, fields in self.FIELDS.findall(text):
            value = f"({values[name]})" if name in values else name
            path = f"{module}.{name}"
            self.structs[name] = Declared(path, groups_of(fields), value, text)

    def parts(self, name):
        """A type's name without its parameters, and its first parameter."""
        found = re.fullmatch(r"(\w+)(?:<\s*(\w+).*>)?", self.aliases.get(name, name), re.S)
        if not found:
            raise NoRule(f"{name} is no struct, and none in a tag or a list")
        return found.groups()

    def struct(self, name):
        """A struct, and its type as proofs have it."""
        head, parameter = self.parts(name)
        if head not in self.structs:
            raise NoRule(f"no crate that it uses has an `impl Sequence` for {name}")
        declared = self.structs[head]
        return declared, f"({declared.value} {parameter})" if parameter else declared.value

    def field_type(self, name, field):
        """The type of a field that is itself a struct."""
        struct = self.struct(name)[0].text.partition(f"\npub struct {name} ")[2]
        found = re.search(rf"^    pub {field}: (\w+),$", struct, re.M)
        if not found:
            raise NoRule(f"{field} of {name} is no struct by itself, and its row is a SEQUENCE")
        return found[1]


# ---- the types, by their rows

SHAPE = re.compile(r"^    (?:∷ )?(shape\..*)$", re.M)
FIELD = re.compile(r"\((?:None|Some (\d+)), (true|false), (true|false), codes .*, (\d+)\)$", re.M)
NAMED = re.compile(r'\(codes "(.+)", (\d+)\)$', re.M)
CLAUSE = re.compile(r'^    ensures (\w+) \{ HasItsRow ⟦<(.+) as DerEncode>⟧ \(codes "(.+)"\) \}$')


def clauses_of(laws):
    """The clauses of src/laws.rt that a row is its type's: each type that can be named has one."""
    clauses, law = [], ""
    for line in laws.split("\n"):
        law = line[7:].partition("(")[0] if line.startswith("pub fn ") else law
        if found := CLAUSE.match(line):
            if law not in FILES:
                raise NoRule(f"{law}: FILES of docs/ties.py has no line of it")
            clauses.append(Clause(law, *found.groups()))
    named = {it.row for it in clauses}
    for row in re.findall(r'^    (?:\(0x\w\w, )?"(.+)"\)?,$', NAMED_TYPES.read_text("utf-8"), re.M):
        if row not in named and row != CHOICE:
            raise NoRule(f"no clause is of {row}, which krb_show_pages names")
    return clauses


def name_of(struct, title):
    """kdc_req_as for KdcReq and KDC-REQ (AS)."""
    words = re.sub(r"(?<=[a-z0-9])(?=[A-Z])", "_", struct.removesuffix("Inner")).lower()
    alternative = re.search(r"\((\w+)\)$", title)
    return f"{words}_{alternative[1].lower()}" if alternative else words


class Types:
    """The SEQUENCEs that clauses of src/laws.rt reach, by their rows in specs/Types.antt."""

    def __init__(self, table, laws):
        self.shapes, self.fields = [it.split() for it in SHAPE.findall(table)], FIELD.findall(table)
        self.rows = {name: int(row) for name, row in NAMED.findall(table)}
        self.names = {row: name for name, row in reversed(self.rows.items())}
        self.sources = Sources(sorted(set(re.findall(r"^use (krb_\w+)::", laws, re.M))))
        self.clauses, self.types, self.laws, self.structs = clauses_of(laws), {}, {}, {}
        for it in self.clauses:
            if it.row not in self.rows:
                raise NoRule(f"{it.law}: no row is called {it.row}")
            self.claim(it.law, it.type, self.rows[it.row])
        for row in sorted(self.types):
            self.struct(row)

    def claim(self, law, name, row):
        """A type and its row: the SEQUENCE in its tags and lists is a codec of this law."""
        kind, *numbers = self.shapes[row]
        if kind == "shape.Sequence":
            self.types.setdefault(row, name)
            self.laws.setdefault(row, law)
        elif kind in ("shape.Tagged", "shape.SequenceOf"):
            head, inner = self.sources.parts(name)
            if head != ("ApplicationTag" if kind == "shape.Tagged" else "Asn1SequenceOf"):
                raise NoRule(f"{name} is no {kind.removeprefix('shape.')}, as its row is")
            self.claim(law, inner, int(numbers[1]))
        else:
            raise NoRule(f"the row of {name} is no SEQUENCE, and none in a tag or a list")

    def content(self, row):
        """What a row is."""
        kind, *words = self.shapes[row]
        numbers = [int(it) for it in words if it.isdigit()]
        if kind == "shape.Sequence":
            return self.struct(row)
        if kind == "shape.SequenceOf":
            return ListOf(row, self.content(numbers[1]), words[2])
        if kind == "shape.Tagged":
            return Tagged(row, numbers[0], self.content(numbers[1]))
        if kind == "shape.Holding":
            given = f"{words[0]} {words[1]} refl (lit≤ tt)"
            return Leaf(row, "octets", *LEAVES["octets"][1:], "holding_tie", given)
        if kind == "shape.Any":
            return Anything(row)
        leaf = words[1].strip("()").removeprefix("leaf.")
        codec = next((codec for codec, about in LEAVES.items() if leaf in about[0].split()), None)
        if numbers[0] >= 128 and leaf == "Octets":
            return Under(row, numbers[0])
        if numbers[0] >= 128 or not codec:
            raise NoRule(f"row {row}: no codec is of {' '.join(words)}")
        given = f"{words[2].strip('()')} refl" if leaf == "Number" else "refl"
        return Leaf(row, codec, *LEAVES[codec][1:], f"{leaf.lower()}_tie", given)

    def struct(self, row):
        """The SEQUENCE that a row is."""
        if row in self.structs:
            return self.structs[row]
        if row not in self.types:
            raise NoRule(f"no clause is of {self.names.get(row, f'row {row}')}")
        name, (first, count) = self.types[row], map(int, self.shapes[row][2:])
        declared, type_of = self.sources.struct(name)
        title = self.names.get(row, name)
        groups = declared.fields if any(declared.fields) else [list(map(str, range(count)))]
        if (has := sum(map(len, groups))) != count:
            raise NoRule(f"`ghost fields` of {name} has {has} fields, and its row {count}")
        fields = iter(self.fields[first : first + count])
        groups = [[self.field(row, it, *next(fields)) for it in group] for group in groups]
        made = Struct(row, name_of(name, title), title, type_of, first, groups)
        self.structs[row] = made
        return made

    def field(self, row, name, tag, is_tagged, is_optional, held):
        """A field of a row, what it is called, and what it holds."""
        held = int(held)
        if self.shapes[held][0] == "shape.Sequence" and held not in self.names:
            self.claim(self.laws[row], self.sources.field_type(self.types[row], name), held)
        content = self.content(held)
        for it in (content, getattr(content, "inner", None)):
            if isinstance(it, Tagged):
                it.inner.tag = it.tag
        return Field(int(tag or 0), is_tagged == "true", is_optional == "true", content, name)

    def ordered(self, law):
        """The SEQUENCEs of a law by their rows, but that what one needs stands before it."""
        found, structs = [], self.structs.values()

        def visit(them):
            for it in sorted(them, key=lambda it: it.row):
                if self.laws[it.row] == law and it not in found:
                    first = {one for one in structs if one.codec == STANDS_BEFORE.get(it.codec)}
                    visit(it.needs() | first)
                    found.append(it)

        visit(structs)
        return found


# ---- the files


def words_of(text):
    """The words that a text may have from elsewhere: none behind a dot, and no names of fields."""
    text = re.sub(r"\w+ =(?= )", "", text)
    return set(re.findall(r"(?<![.\w-])[^\s(){},.;:]+", text))


def uses(words, paths):
    """A line a path, for what of its names is among the words."""
    for path, names in paths:
        names = [it for it in names.split(", ") if it.split(" as ")[-1].strip("◌") in words]
        if names:
            yield f"use {path}.{{{', '.join(names)}}}\n"


def uses_of_codecs(words, types, structs):
    """A line a file, for what is named of these codecs."""
    for law, (file, _) in FILES.items():
        codecs = [it.codec for it in structs if types.laws[it.row] == law]
        names = [form.replace("@", it) for it in codecs for form in IMPORTED]
        yield from uses(words, [(f"{PROOFS}.{file}", ", ".join(names))])


def codecs_text(types, law):
    """The file of a law's codecs."""
    file, about = FILES[law]
    structs = types.ordered(law)
    text = "\n".join(it.text() for it in structs)
    if "IsUnder" in words_of(text):
        text = f"{UNDER}\n{text}"
    words, declared = words_of(text), types.sources.structs
    named = {it for struct in structs for it in re.findall(r"\w+", struct.type) if it in declared}
    paths = sorted((declared[it].path, it) for it in named)
    needed = {it for struct in structs for it in struct.needs() if types.laws[it.row] != law}
    first = IMPORTED_FIRST.get(file)
    others = sorted(needed, key=lambda it: (it.codec != first, it.row))
    lines = [*uses(words, [*USES, *paths, *USES_BEHIND]), *uses_of_codecs(words, types, others)]
    return f"-- {about}\n{''.join(lines)}\n{text}"


def uses_of_readers(words, types, structs):
    """A line a file, for what is named of what reads these."""
    for law, (file, _) in READS.items():
        codecs = [it.codec for it in structs if types.laws[it.row] == law]
        names = [f"{it}{end}" for it in codecs for end in ("_reader", "_refused")]
        yield from uses(words, [(f"{PROOFS}.{file}", ", ".join(names))])


def readers_text(types, law):
    """The file of what reads the types of a law."""
    file, about = READS[law]
    structs = types.ordered(law)
    text = "\n".join(it.reader_text() for it in structs)
    words, declared = words_of(text), types.sources.structs
    named = {it for struct in structs for it in re.findall(r"\w+", struct.type) if it in declared}
    paths = sorted((declared[it].path, it) for it in named)
    needed = {it for struct in structs for it in struct.needs() if types.laws[it.row] != law}
    others = sorted(needed, key=lambda it: it.row)
    lines = [*uses(words, [*USES_OF_READERS, *paths, *USES_OF_READERS_BEHIND])]
    lines += uses_of_codecs(words, types, sorted(structs, key=lambda it: it.row))
    lines += uses_of_readers(words, types, others)
    return f"-- {about}, and their first errors.\n{''.join(lines)}\n{text}"


def answers_text(types, law):
    """The answers to a law's clauses."""
    answers, structs = [], set()
    for it in types.clauses:
        if it.law == law:
            row = types.rows[it.row]
            content = types.content(row)
            same, valid, right = content.answers()
            structs.update(content.structs)
            about = {"same": same, "valid": valid, "right": right, "tie": content.tie(LEVELS, str)}
            about["refused"] = content.refused(LEVELS, str).replace("(sequence_of ", "(list_of ")
            answers.append(
                ANSWER.format(clause=it.name, codec=content.codec, name=it.row, row=row, **about)
            )
    text = "\n".join(answers)
    words, goals = words_of(text), f"{PROOFS}.laws.{law}.Goals as goal"
    structs = sorted(structs, key=lambda it: it.row)
    lines = [*uses(words, USES_OF_ANSWERS), *uses_of_codecs(words, types, structs)]
    lines += uses_of_readers(words, types, structs)
    return f"{''.join(lines)}use {goals}\n\n{text}"


def files_of(table):
    """The files that follow from the table, as specs/Types.antt has it, by their paths."""
    types = Types(table, LAWS.read_text("utf-8"))
    files = {}
    for law, (file, _) in FILES.items():
        files[CRATE / "proofs" / f"{file}.antt"] = codecs_text(types, law)
        files[CRATE / "proofs" / f"{READS[law][0]}.antt"] = readers_text(types, law)
        files[CRATE / "proofs" / "laws" / law / "Answers.antt"] = answers_text(types, law)
    return files
