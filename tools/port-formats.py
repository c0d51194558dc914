"""Has the crates above lifting cite the laws of formats, which stand in lifting's proofs/ since specs/ holds their data alone.

    python3 tools/port-formats.py        at the repository's top; what is done already stays as it is

Names that moved are imported from where they stand now. A combinator of laws takes a law (`Inverse C`) where it took the format C; what cannot be done by
names is a pair of texts below. A text that is found in neither form is told and ends the script with status 1.
"""
import glob, re, sys

# module of lifting → the names that moved from its specs/ to its proofs/
MOVED = {
    "Digits": ["number_sound", "number_full"],
    "Codec": ["sound_alt", "full_alt", "codec_length", "codec_on", "sound_many", "many_length", "full_many", "many_more", "list_more"],
    "Whole": ["sound_end", "whole_sound", "whole_full"],
    "Grammar": ["rest_to_of", "rest_of_to", "print_of_read", "read_of_print", "read_exactly"],
}
# a law takes laws where it took formats: the call as it was → as it is
PAIRS = {
    "read_cursor/specs/Begins.antt": [
        ("""-- one or the other: the second does not read what the first's head prints
""", """-- one or the other: the second does not read what the first's head prints, so none of what that head reads
"""),
        ("""(heads_apart : (y : Y) (r : List ℕ) → H.read (G.print y ++ r) ≡ none) → Begins C H k → Begins D G l
""", """(heads_apart : (y : Y) (r : List ℕ) → H.read (G.print y ++ r) ≡ none) → Inverse H → Begins C H k → Begins D G l
"""),
        ("{l} apart heads_apart b d other = record", "{l} apart heads_apart h b d other = record"),
        ("(rw (H.sound t x e).0 (other x.0 x.1))", "(rw (h.sound t x e).0 (other x.0 x.1))"),
    ],
    "read_insts/specs/Heads.antt": [
        ("""inst_head = sub "inst" field

abbrev pub inst_rest""", """inst_head = sub "inst" field

inst_head_inverse : Inverse inst_head
unfolding inst_head
inst_head_inverse = sub_inverse "inst" field_inverse

abbrev pub inst_rest"""),
        ("""op_kind_head = same op_kind_head_form to_op_kind of_op_kind op_kind_to_of op_kind_of_to

abbrev""", """op_kind_head = same op_kind_head_form to_op_kind of_op_kind op_kind_to_of op_kind_of_to

op_kind_head_inverse : Inverse op_kind_head
unfolding op_kind_head op_kind_head_form inst_head sub before lit seq same view_as alt strip
op_kind_head_inverse =
    same_inverse (alt_inverse (alt_inverse inst_head_inverse (sub_inverse "call" one_codec_inverse) (λ b r. refl)) (sub_inverse "ext" two_inverse) (λ b r. refl))
    to_op_kind of_op_kind op_kind_to_of op_kind_of_to

abbrev"""),
        ("""    begins_alt (λ b r. refl) (λ b r. refl) (begins_alt (λ b r. refl) (λ b r. refl) inst_begins (begins_self (sub "call" one_codec)) (λ x r. refl))
""", """    begins_alt (λ b r. refl) (λ b r. refl) (alt_inverse inst_head_inverse (sub_inverse "call" one_codec_inverse) (λ b r. refl))
    (begins_alt (λ b r. refl) (λ b r. refl) inst_head_inverse inst_begins (begins_self (sub "call" one_codec)) (λ x r. refl))
"""),
        ("""op_head = same op_head_form to_op (λ o. (o.attrs, (o.ty, o.kind))) (λ o. refl) (λ x. refl)

--""", """op_head = same op_head_form to_op (λ o. (o.attrs, (o.ty, o.kind))) (λ o. refl) (λ x. refl)

pub op_head_inverse : Inverse op_head
unfolding op_head op_head_form
op_head_inverse =
    same_inverse (before_inverse (bytes "(op") refl (seq_inverse field_inverse (seq_inverse field_inverse op_kind_head_inverse)))
    to_op (λ o. (o.attrs, (o.ty, o.kind))) (λ o. refl) (λ x. refl)

--"""),
        ("""selection_head = same selection_head_form to_selection of_selection selection_to_of selection_of_to

abbrev""", """selection_head = same selection_head_form to_selection of_selection selection_to_of selection_of_to

selection_head_inverse : Inverse selection_head
unfolding selection_head selection_head_form inst_head keyword sub before lit seq same view_as strip
selection_head_inverse =
    same_inverse (alt_inverse (keyword_inverse "bool") inst_head_inverse (λ b r. refl)) to_selection of_selection selection_to_of selection_of_to

abbrev"""),
        ("""begins_alt (λ b r. refl) (λ b r. refl) (begins_self (keyword "bool")) inst_begins (λ x r. refl)""",
         """begins_alt (λ b r. refl) (λ b r. refl) (keyword_inverse "bool") (begins_self (keyword "bool")) inst_begins (λ x r. refl)"""),
        ("""words = alt (alt (keyword "unreachable") (keyword "return") (λ b r. refl)) (keyword "branch") (λ b r. refl)

""", """words = alt (alt (keyword "unreachable") (keyword "return") (λ b r. refl)) (keyword "branch") (λ b r. refl)

words_inverse : Inverse words
unfolding words keyword lit alt strip
words_inverse =
    alt_inverse (alt_inverse (keyword_inverse "unreachable") (keyword_inverse "return") (λ b r. refl)) (keyword_inverse "branch") (λ b r. refl)

"""),
        ("""plain_head = alt words (sub "exit" inst_head) (λ b r. refl)

""", """plain_head = alt words (sub "exit" inst_head) (λ b r. refl)

plain_head_inverse : Inverse plain_head
unfolding plain_head words inst_head keyword sub before lit seq same view_as alt strip
plain_head_inverse = alt_inverse words_inverse (sub_inverse "exit" inst_head_inverse) (λ b r. refl)

"""),
        ("""control_head = same control_head_form to_control of_control control_to_of control_of_to

""", """control_head = same control_head_form to_control of_control control_to_of control_of_to

pub control_head_inverse : Inverse control_head
unfolding control_head control_head_form
control_head_inverse =
    same_inverse (alt_inverse plain_head_inverse selection_head_inverse plain_head_apart) to_control of_control control_to_of control_of_to

"""),
        ("begins_alt (λ b r. refl) (λ b r. refl) (begins_self words)", "begins_alt (λ b r. refl) (λ b r. refl) words_inverse (begins_self words)"),
        ("begins_alt plain_apart plain_head_apart plain_form_begins", "begins_alt plain_apart plain_head_apart plain_head_inverse plain_form_begins"),
    ],
    "read_lines/specs/Lines.antt": [
        ("(C : Codec A) (D : Whole B) (apart : (b : B) (r : Unit {0}) → C.read (D.print b ++ []) ≡ none) (H : Codec X) {tail : X → List ℕ → Reading A}\n",
         "{C : Codec A} → Inverse C → (D : Whole B) (apart : (b : B) (r : Unit {0}) → C.read (D.print b ++ []) ≡ none) {H : Codec X} → Inverse H → {tail : X → List ℕ → Reading A}\n"),
        ("kind_of_law {A} {B} {X} C D apart H {tail} b later = record", "kind_of_law {A} {B} {X} {C} c D apart {H} h {tail} b later = record"),
        ("many_more C D apart t a u", "many_more c D apart t a u"),
        ("(H.sound t (x, m) e).0", "(h.sound t (x, m) e).0"),
    ],
    "read_lines/specs/Kinds.antt": [
        ('kind_of_law const_line param_lines const_apart (lit (bytes "(const") refl)', 'kind_of_law const_line_inverse param_lines const_apart (lit_inverse (bytes "(const") refl)'),
        ('kind_of_law param_line rest_lines param_apart (lit (bytes "(param") refl)', 'kind_of_law param_line_inverse rest_lines param_apart (lit_inverse (bytes "(param") refl)'),
        ('kind_of_law region_line node_lines region_apart (lit (bytes "(region (in") refl)', 'kind_of_law region_line_inverse node_lines region_apart (lit_inverse (bytes "(region (in") refl)'),
        ("kind_of_law node_line op_lines node_apart node_head node_begins", "kind_of_law node_line_inverse op_lines node_apart node_head_inverse node_begins"),
        ("kind_of_law op_line ctrl_lines op_apart op_head op_line_begins", "kind_of_law op_line_inverse ctrl_lines op_apart op_head_inverse op_line_begins"),
    ],
    "read_lines/specs/Nodes.antt": [
        ("""unfoldable pub node_head : Codec NodeWord
node_head = same word_form to_word of_word word_to_of word_of_to

""", """unfoldable pub node_head : Codec NodeWord
node_head = same word_form to_word of_word word_to_of word_of_to

pub node_head_inverse : Inverse node_head
unfolding node_head word_form lit alt strip
node_head_inverse =
    same_inverse
    (alt_inverse (alt_inverse (alt_inverse (lit_inverse (bytes "(block") refl) (lit_inverse (bytes "(select") refl) (λ b r. refl)) (lit_inverse (bytes "(loop") refl) (λ b r. refl)) (lit_inverse (bytes "(exit") refl) (λ b r. refl))
    to_word of_word word_to_of word_of_to

"""),
        ("""    begins_alt (λ b r. refl) (λ b r. refl)
    (begins_alt (λ b r. refl) (λ b r. refl)
    (begins_alt (λ b r. refl) (λ b r. refl) (begins_line "block" numbers_codec) select_begins (λ x r. refl))
""", """    begins_alt (λ b r. refl) (λ b r. refl) (alt_inverse (alt_inverse (lit_inverse (bytes "(block") refl) (lit_inverse (bytes "(select") refl) (λ b r. refl)) (lit_inverse (bytes "(loop") refl) (λ b r. refl))
    (begins_alt (λ b r. refl) (λ b r. refl) (alt_inverse (lit_inverse (bytes "(block") refl) (lit_inverse (bytes "(select") refl) (λ b r. refl))
    (begins_alt (λ b r. refl) (λ b r. refl) (lit_inverse (bytes "(block") refl) (begins_line "block" numbers_codec) select_begins (λ x r. refl))
"""),
    ],
    "read_lines/specs/Elements.antt": [
        ("pub list_listing : {A : Type 0} (C : Codec A) (s : List ℕ)", "pub list_listing : {A : Type 0} {C : Codec A} → Inverse C → (s : List ℕ)"),
        ("list_listing C s h apart = record { over = list_over C s h apart; more = list_more C s h apart; apart = apart }",
         "list_listing {C = C} c s h apart = record { over = list_over C s h apart; more = list_more c s h apart; apart = apart }"),
        ("list_listing field (bytes", "list_listing field_inverse (bytes"),
        ("list_listing value_codec (bytes", "list_listing value_codec_inverse (bytes"),
        ("list_listing decl (bytes", "list_listing decl_inverse (bytes"),
        ("list_listing imm_codec (bytes", "list_listing imm_codec_inverse (bytes"),
    ],
    "read_ctrls/specs/Tails.antt": [
        ("list_listing entry_codec (bytes", "list_listing entry_codec_inverse (bytes"),
        ("""ctrl_head = same ctrl_head_form (λ x. record { region = x.0; attrs = x.1.0; kind = x.1.1 }) (λ h. (h.region, (h.attrs, h.kind))) (λ h. refl) (λ x. refl)

""", """ctrl_head = same ctrl_head_form (λ x. record { region = x.0; attrs = x.1.0; kind = x.1.1 }) (λ h. (h.region, (h.attrs, h.kind))) (λ h. refl) (λ x. refl)

ctrl_head_inverse : Inverse ctrl_head
unfolding ctrl_head ctrl_head_form
ctrl_head_inverse =
    same_inverse (before_inverse (bytes "(ctrl") refl (seq_inverse field_inverse (seq_inverse field_inverse control_head_inverse)))
    (λ x. record { region = x.0; attrs = x.1.0; kind = x.1.1 }) (λ h. (h.region, (h.attrs, h.kind))) (λ h. refl) (λ x. refl)

"""),
        ("kind_of_law ctrl_line end (λ b r. refl) ctrl_head ctrl_begins", "kind_of_law ctrl_line_inverse end (λ b r. refl) ctrl_head_inverse ctrl_begins"),
    ],
    "read_values/specs/Alike.antt": [
        ("-- A format's own law has a print read", "-- A format's law has a print read"),
        ("  also : (C D : Format E A) → ((a : A) →", "  also : {C D : Format E A} → Inverse C → ((a : A) →"),
        ("  also C D prints oks d t x e =", "  also {C} {D} i prints oks d t x e ="),
        ("let s = C.sound t x e in", "let s = i.sound t x e in"),
        ("  pub alike : (C D : Format E A) → ((a : A)", "  pub alike : {C D : Format E A} → Inverse C → Inverse D → ((a : A)"),
        ("  alike C D prints oks c d t = go", "  alike {C} {D} i j prints oks c d t = go"),
        ("sym (also C D prints", "sym (also i prints"),
        ("also D C (λ a. sym", "also j (λ a. sym"),
        ("pub settled_after : {A : Type 0} (C : Codec A) (s : List ℕ) (h : Led s) →", "pub settled_after : {A : Type 0} {C : Codec A} → Inverse C → (s : List ℕ) (h : Led s) →"),
        ("settled_after C s h = record { full = λ a ok r. rw (append_assoc, C.full a ok.0", "settled_after c s h = record { full = λ a ok r. rw (append_assoc, c.full a ok.0"),
    ],
    "read_values/specs/Formed.antt": [
        ("  pub sound_form : (t : List ℕ)", "  pub sound_form : Inverse W → (t : List ℕ)"),
        ("  sound_form t x e =", "  sound_form i t x e ="),
        ("whole_sound W (take m u)", "whole_sound i (take m u)"),
        ("  pub full_form : (a : A)", "  pub full_form : Inverse W → (a : A)"),
        ("  full_form a ok r =", "  full_form i a ok r ="),
        ("(whole_full W a ok)", "(whole_full i a ok)"),
        ("""h);
        sound = sound_form;
        full = λ a ok r m. full_form a ok r;
      }

  pub settled_formed : ReadBack formed_by
  unfolding formed_by
  settled_formed = record { full = full_form }
""", """h);
      }

  pub formed_by_inverse : Inverse W → Inverse formed_by
  unfolding formed_by
  formed_by_inverse i = record { sound = sound_form i; full = λ a ok r m. full_form i a ok r }

  pub settled_formed : Inverse W → ReadBack formed_by
  unfolding formed_by
  settled_formed i = record { full = full_form i }
"""),
    ],
    "read_values/specs/Part.antt": [
        ("""value_part = same (seq value_parts end) (λ x. x.0) (λ v. (v, tt)) (λ v. refl) (λ x. refl)

""", """value_part = same (seq value_parts end) (λ x. x.0) (λ v. (v, tt)) (λ v. refl) (λ x. refl)

value_parts_inverse : Inverse value_parts
unfolding value_parts before lit seq same view_as alt strip
value_parts_inverse =
    alt_inverse (alt_inverse (alt_inverse (before_inverse (bytes "c") refl field_inverse) (before_inverse (bytes "r") refl (seq_inverse field_inverse field_inverse)) (λ b r. refl)) (before_inverse (bytes "n") refl (seq_inverse field_inverse field_inverse)) (λ b r. refl))
    (before_inverse (bytes "d") refl field_inverse) (λ b r. refl)

value_part_inverse : Inverse value_part
unfolding value_part
value_part_inverse = same_inverse (seq_inverse value_parts_inverse end_inverse) (λ x. x.0) (λ v. (v, tt)) (λ v. refl) (λ x. refl)

"""),
        ("""value_by_part = formed_by (bytes " (") refl value_part plain_part

""", """value_by_part = formed_by (bytes " (") refl value_part plain_part

value_by_part_inverse : Inverse value_by_part
unfolding value_by_part
value_by_part_inverse = formed_by_inverse (bytes " (") refl value_part plain_part value_part_inverse

"""),
        ("""(settled_after field (bytes ")") refl)""", """(settled_after field_inverse (bytes ")") refl)"""),
        ("""(settled_after (seq field field) (bytes ")") refl)""", """(settled_after (seq_inverse field_inverse field_inverse) (bytes ")") refl)"""),
        ("""alike value_form value_by_part same_print same_values settled_words (settled_formed (bytes " (") refl value_part plain_part)""",
         """alike value_form_inverse value_by_part_inverse same_print same_values settled_words (settled_formed (bytes " (") refl value_part plain_part value_part_inverse)"""),
    ],
    "read_first/specs/Cut.antt": [
        ("""-- behind a literal anything may follow
after_full : {A : Type 0} (C : Codec A) (s : List ℕ)""", """first_line_inverse : Inverse first_line_form
unfolding first_line_form
first_line_inverse = line_inverse "first" one_codec_inverse

-- behind a literal anything may follow
after_full : {A : Type 0} {C : Codec A} → Inverse C → (s : List ℕ)"""),
        ("after_full C s h a ok r = rw (C.full a ok (s", "after_full c s h a ok r = rw (c.full a ok (s"),
        ("after_full one_codec (bytes", "after_full one_codec_inverse (bytes"),
        ("first_line_form.sound a (n, r) e", "first_line_inverse.sound a (n, r) e"),
        ("first_line_form.sound (a ++ b) (n, r) e", "first_line_inverse.sound (a ++ b) (n, r) e"),
    ],
    "print_bytes/specs/Shown.antt": [
        ("""listing = many inst_line end (λ u r. refl)

""", """listing = many inst_line end (λ u r. refl)

listing_inverse : Inverse listing
unfolding listing end inst_line instruction_form closed after_word open1 lit num seq same view_as strip
listing_inverse = many_inverse inst_line_inverse end_inverse (λ u r. refl)

"""),
        ("""-- its bytes
unfoldable pub inst_bytes""", """inst_form_inverse : Inverse instruction_form
unfolding instruction_form
inst_form_inverse =
    after_word_inverse
    (closed_inverse (seq_inverse open1_inverse (seq_inverse field_inverse (seq_inverse field_inverse (seq_inverse field_inverse (seq_inverse (sub_inverse "imms" imms_codec_inverse) (sub_inverse "ids" numbers_codec_inverse)))))))
    (bytes "\\n") refl

inst_line_inverse : Inverse inst_line
unfolding inst_line
inst_line_inverse =
    same_inverse inst_form_inverse
    (λ x. record { opcode = x.0; attrs = x.1.0; type = x.1.1.0; result = x.1.1.1.0; imms = x.1.1.1.1.0; ids = x.1.1.1.1.1 })
    (λ i. (i.opcode, (i.attrs, (i.type, (i.result, (i.imms, i.ids)))))) (λ i. refl) (λ x. refl)

-- its bytes
unfoldable pub inst_bytes"""),
        ("at (whole_full listing (l, tt) ok)", "at (whole_full listing_inverse (l, tt) ok)"),
    ],
}
# where a law of lifting stands; another, of a crate between, is named with its module
LAWS = {
    **dict.fromkeys(["Inverse", "lit_inverse", "num_inverse", "seq_inverse", "view_inverse", "same_inverse", "alt_inverse", "many_inverse", "list_inverse"], "lifting.proofs.Codec"),
    "end_inverse": "lifting.proofs.Whole",
    **{name: f"lifting.proofs.{module}" for module, names in MOVED.items() for name in names},
    "op_head_inverse": "read_insts.specs.Heads", "control_head_inverse": "read_insts.specs.Heads", "node_head_inverse": "read_lines.specs.Nodes",
    "formed_by_inverse": "read_values.specs.Formed",
}
NAME = r"(?<![\w.«-])%s(?![\w-])"


def imported(text):
    """Returns the text with an import of each law that it names and neither declares nor imports."""
    for module, names in MOVED.items():
        def kept(line):
            items = [it for it in line[1].split(", ") if it not in names]
            return f"use Rattle.lifting.specs.{module}.{{{', '.join(items)}}}\n" if items else ""
        text = re.sub(rf"^use Rattle\.lifting\.specs\.{module}\.\{{([^}}]*)\}}\n", kept, text, flags=re.M)
    body = re.sub(r"^(?:pub )?use .*\n|--.*", "", text, flags=re.M)
    brought = {it.split(" as ")[-1].strip() for line in re.findall(r"^(?:pub )?use [^{\n]*\{([^}\n]*)\}", text, re.M) for it in line.split(",")}
    wants = {}
    for name in sorted(set(re.findall(r"[\w]+_inverse\b|\bInverse\b", body)) | {it for names in MOVED.values() for it in names if re.search(NAME % it, body)}):
        if name in brought or re.search(rf"^ *(?:pub |unfoldable pub |abbrev pub )?{name} :", text, re.M):
            continue
        wants.setdefault(LAWS.get(name, "lifting.proofs.Grammar"), []).append(name)
    for module, names in wants.items():
        line = re.search(rf"^use Rattle\.{re.escape(module)}\.\{{([^}}\n]*)\}}\n", text, re.M)
        if line:
            items = line[1].split(", ")
            text = text.replace(line[0], f"use Rattle.{module}.{{{', '.join(items + [it for it in names if it not in items])}}}\n")
        else:
            last = [it for it in re.finditer(r"^use Rattle\.lifting\..*\n", text, re.M)][-1]
            text = text[:last.end()] + f"use Rattle.{module}.{{{', '.join(names)}}}\n" + text[last.end():]
    return text


def main():
    files, lacking = {}, 0
    for path in sorted(glob.glob("crates/*/*/**/*.antt", recursive=True)):
        if path.startswith("crates/lifting/") or "/out/" in path:
            continue
        with open(path, encoding="utf-8") as it:
            files[path] = it.read()
    new, touched = dict(files), set()
    for path, pairs in PAIRS.items():
        # a law of specs/ may have moved to the crate's own proofs/, under the same name of its file
        homes = [it for it in (f"crates/{path}", f"crates/{path}".replace("/specs/", "/proofs/")) if it in files]
        for before, after in pairs:
            if any(after in new[it] for it in homes):
                continue
            found = [it for it in homes if new[it].count(before) == 1]
            if len(found) != 1:
                print(f"{path}: found in {len(found)} files: {before.strip()[:120]}")
                lacking += 1
                continue
            new[found[0]] = new[found[0]].replace(before, after)
        touched.update(homes)
    for path, text in new.items():
        cites = any(re.search(rf"^use Rattle\.lifting\.specs\.{module}\.\{{[^}}]*(?<!\w){name}(?!\w)", text, re.M) for module, names in MOVED.items() for name in names)
        if path in touched or cites:
            text = imported(text)
        if text != files[path]:
            with open(path, "w", encoding="utf-8") as it:
                it.write(text)
            print(f"{path}: written")
    return 1 if lacking else 0


if __name__ == "__main__":
    sys.exit(main())
