"""The wrong programs that `tests/wrong` tries: each fault made in code and definition alike, and in what proofs repeat of
them, so that every function still does what its contract says."""

from collections import namedtuple

import support

# What is wrong, and the replacements: (folder, text) pairs, in the form of the must-fail edits.
Fault = namedtuple("Fault", "words edits")

SIX_DEEP_BEHIND_SHOW = """
file: crates/line_codes/src/lib.rt
old: const DEEPEST_IN_SHOW: usize = 5;
new: const DEEPEST_IN_SHOW: usize = 6;
file: crates/line_codes/specs/Line.antt
old: deepest ts = cond (is_show ts) 5 4
new: deepest ts = cond (is_show ts) 6 4
"""

DIST_AND_GIRDER = """
file: crates/parts/src/lib.rt
old:                 dist,
new:                 dist: girder,
old:                 girder,
new:                 girder: dist,
file: crates/parts/specs/Shape.antt
old: Wing (nth v 0) (nth v 1) (nth v 2) (nth v 3)
new: Wing (nth v 0) (nth v 2) (nth v 1) (nth v 3)
"""

VOID_AND_GRAIN = """
file: crates/parts/src/lib.rt
old:         void,
new:         void: grain,
old:         grain,
new:         grain: void,
file: crates/parts/specs/Shape.antt
old: Undivided (nth v 1) (nth v 2) (nth v 3)
new: Undivided (nth v 1) (nth v 3) (nth v 2)
"""

# A split whose sizes are read in another order: what stands for each in the code, and the places of its numbers.
SPLIT_READ = """
file: crates/parts/src/lib.rt
old: Slack::Split {{ run, left, right }}
new: Slack::Split {{ {} }}
file: crates/parts/specs/Shape.antt
old: Split (nth v 1) (nth v 2) (nth v 3)
new: Split (nth v {}) (nth v {}) (nth v {})
"""
LEFT_AND_RUN = SPLIT_READ.format("run: left, left: run, right", 2, 1, 3)
LEFT_AND_RIGHT = SPLIT_READ.format("run, left: right, right: left", 1, 3, 2)

SPLIT_AMONG_CELLS = """
file: crates/parts/src/lib.rt
old: (Mode::Trimmed | Mode::Voided, PartWord::SplitWord) => None
new: (Mode::Trimmed | Mode::Voided, PartWord::SplitWord) => section(s)
file: crates/parts/specs/Shape.antt
old: body? Trimmed SplitWord ts = none
new: body? Trimmed SplitWord ts = section? ts
old: body? Voided SplitWord ts = none
new: body? Voided SplitWord ts = section? ts
file: crates/parts/proofs/Tidy.antt
old: body_yields Trimmed SplitWord ts = nothing
new: body_yields Trimmed SplitWord ts = section_yields trimmed ts
old: body_yields Voided SplitWord ts = nothing
new: body_yields Voided SplitWord ts = section_yields voided ts
file: crates/showing/proofs/Framing.antt
old: body_frames Trimmed SplitWord = frames_none
new: body_frames Trimmed SplitWord = section_frames
old: body_frames Voided SplitWord = frames_none
new: body_frames Voided SplitWord = section_frames
file: crates/showing/proofs/Shapes.antt
old: body_leaves d k Trimmed SplitWord ts h p = nothing
new: body_leaves d k Trimmed SplitWord ts h p = section_leaves d k ts h p
old: body_leaves d k Voided SplitWord ts h p = nothing
new: body_leaves d k Voided SplitWord ts h p = section_leaves d k ts h p
"""

ANOTHER_WORD_FOR_SPLIT = """
file: crates/parts/src/lib.rt
old: const PARTS: [(&[u8], PartWord); 2] = [
new: const PARTS: [(&[u8], PartWord); 3] = [
old:     (b"split", PartWord::SplitWord),
new:     (b"split", PartWord::SplitWord), (b"board", PartWord::SplitWord),
file: crates/parts/specs/Shape.antt
old: ("split", Some SplitWord) ∷ []) None r
new: ("split", Some SplitWord) ∷ ("board", Some SplitWord) ∷ []) None r
"""

SPLIT_NOT_OF_PARTIAL = """
file: crates/parts/src/lib.rt
old: (Mode::Partial, PartWord::SplitWord) => split(s)
new: (Mode::Partial, PartWord::SplitWord) => None
file: crates/parts/specs/Shape.antt
old: body? Partial SplitWord ts = split? ts
new: body? Partial SplitWord ts = none
file: crates/parts/proofs/Tidy.antt
old: body_yields Partial SplitWord ts = yields_then (last_numbers? 4 ts) (λ v us. yields (partial _ _))
new: body_yields Partial SplitWord ts = nothing
file: crates/showing/proofs/Framing.antt
old: body_frames Partial SplitWord = split_frames
new: body_frames Partial SplitWord = frames_none
file: crates/showing/proofs/Shapes.antt
old: body_leaves d k Partial SplitWord ts h p = split_leaves d k ts p
new: body_leaves d k Partial SplitWord ts h p = nothing
"""

KG_AND_FS = """
file: crates/forms/src/lib.rt
old: Load { d, kg, fs }
new: Load { d, kg: fs, fs: kg }
file: crates/forms/specs/Shape.antt
old: kg = nth v 0; fs = nth v 1
new: kg = nth v 1; fs = nth v 0
file: crates/forms/proofs/load/Answers.antt
old: kg = nth x 0; fs = nth x 1
new: kg = nth x 1; fs = nth x 0
file: crates/showing/proofs/Framing.antt
old: kg = nth v 0; fs = nth v 1
new: kg = nth v 1; fs = nth v 0
"""

NEW_AND_OLD = """
file: crates/forms/src/lib.rt
old: (b"new", RuleWord::NewWord), (b"old", RuleWord::OldWord)
new: (b"old", RuleWord::NewWord), (b"new", RuleWord::OldWord)
file: crates/forms/specs/Shape.antt
old: ("new", Some NewWord) ∷ ("old", Some OldWord)
new: ("old", Some NewWord) ∷ ("new", Some OldWord)
"""

ROOM_128 = """
file: crates/panel/specs/Step.antt
old: least_room = 96
new: least_room = 128
file: crates/panel/src/lib.rt
old: const LEAST_ROOM: usize = 96;
new: const LEAST_ROOM: usize = 128;
file: crates/panel/proofs/Answers.antt
old: pub handed_room : (r : Request) (n : ℕ) → 96 ≤ n → handed_on (Ok r) n ≡ moment_found r
new: pub handed_room : (r : Request) (n : ℕ) → 128 ≤ n → handed_on (Ok r) n ≡ moment_found r
old: handed_room r n p = rw (le-ltb n 96 p)
new: handed_room r n p = rw (le-ltb n 128 p)
old: pub handed_none : (h : Result Request Fault) (n : ℕ) → n < 96 → handed_on h n ≡ 0
new: pub handed_none : (h : Result Request Fault) (n : ℕ) → n < 128 → handed_on h n ≡ 0
old: handed_none (Ok r) n p = rw (lt-ltb n 96 p)
new: handed_none (Ok r) n p = rw (lt-ltb n 128 p)
old: pub step_none : n < 96 → step_of c line n ≡ record { code = 15; reply = []; after = c }
new: pub step_none : n < 128 → step_of c line n ≡ record { code = 15; reply = []; after = c }
old: step_none p = rw (lt-ltb n 96 p)
new: step_none p = rw (lt-ltb n 128 p)
old: step_is : (h : Result Request Fault) → h ≡ heard_of line → step_of c line n ≡ cond (ltb n 96) (record { code = 15; reply = []; after = c }) (outcome h)
new: step_is : (h : Result Request Fault) → h ≡ heard_of line → step_of c line n ≡ cond (ltb n 128) (record { code = 15; reply = []; after = c }) (outcome h)
old: pub step_refused : 96 ≤ n → step_of c line n ≡ answered (refused_with (fault_code f) c)
new: pub step_refused : 128 ≤ n → step_of c line n ≡ answered (refused_with (fault_code f) c)
old: step_refused p = step_is (Err f) heard ∙ rw (le-ltb n 96 p)
new: step_refused p = step_is (Err f) heard ∙ rw (le-ltb n 128 p)
old: pub step_request : 96 ≤ n → step_of c line n ≡ outcome_of c (tokens line) n r
new: pub step_request : 128 ≤ n → step_of c line n ≡ outcome_of c (tokens line) n r
old: step_request p = step_is (Ok r) heard ∙ rw (le-ltb n 96 p)
new: step_request p = step_is (Ok r) heard ∙ rw (le-ltb n 128 p)
old: lent_room : (step_of c line n).code ≡ 0 → 96 ≤ n
new: lent_room : (step_of c line n).code ≡ 0 → 128 ≤ n
old: lent_room e = by (ltb n 96) refl
new: lent_room e = by (ltb n 128) refl
old: by : (x : Bool) → ltb n 96 ≡ x → 96 ≤ n
new: by : (x : Bool) → ltb n 128 ≡ x → 128 ≤ n
old: by true t = absurd (omega (arith, ap (λ (o : Outcome). o.code) (step_none (ltb-true n 96 t)), e))
new: by true t = absurd (omega (arith, ap (λ (o : Outcome). o.code) (step_none (ltb-true n 128 t)), e))
old: by false t = ltb-false n 96 t
new: by false t = ltb-false n 128 t
file: crates/panel/proofs/Codes.antt
old: right = right_if c changed (ltb lent 96) (right_same c 15 refl) (right_after (reading_of line))
new: right = right_if c changed (ltb lent 128) (right_same c 15 refl) (right_after (reading_of line))
file: crates/panel/proofs/Room.antt
old: any_room line = rw (le-ltb n 96 (omega arith), any_after line (reading_of line))
new: any_room line = rw (le-ltb n 128 (omega arith), any_after line (reading_of line))
file: crates/panel/proofs/answer/Answers.antt
old: let room : 96 ≤ n = search rules in
new: let room : 128 ≤ n = search rules in
"""

SHOW_ROOM_2200 = """
file: crates/panel/specs/Step.antt
old: show_room = 2100
new: show_room = 2200
file: crates/panel/src/lib.rt
old: const SHOW_ROOM: usize = 2100;
new: const SHOW_ROOM: usize = 2200;
file: crates/panel/proofs/Codes.antt
old: (ltb lent 2100)
new: (ltb lent 2200)
file: crates/panel/proofs/Room.antt
old: (p : 2100 ≤ n)
new: (p : 2200 ≤ n)
old: ≡ outcome_of c ts 2100 r
new: ≡ outcome_of c ts 2200 r
old: le-ltb n 2100 p
new: le-ltb n 2200 p
old: ≡ outcome_asked c ts 2100 o
new: ≡ outcome_asked c ts 2200 o
old: ≡ outcome_after c line 2100 t
new: ≡ outcome_after c line 2200 t
old: ≡ step_of c line 2100
new: ≡ step_of c line 2200
"""

FULL_AT_ONCE = """
file: crates/columns/specs/Columns.antt
old: (cond (leb 20 (length ks)) (Err Full)
new: (cond (leb 0 (length ks)) (Err Full)
file: crates/columns/src/lib.rt
old:     if cs.places.len() <= held.len() {
new:     if cs.places.len() <= held.len() + 20 {
file: crates/columns/proofs/Adding.antt
old: suc, ◌-◌, ◌≤◌, ◌<◌}
new: suc, ◌+◌, ◌-◌, ◌≤◌, ◌<◌}
old: answer_full : 20 ≤ length ks
new: answer_full : 20 ≤ length ks + 20
old: le-leb 20 (length ks) h
new: le-leb 0 (length ks) (omega (arith, h))
old: (b : Bool) → length ks < 20 →
new: (b : Bool) → length ks + 20 < 20 →
old: lt-leb 20 (length ks) h
new: lt-leb 0 (length ks) (omega (arith, h))
"""

# ---- behind an edit: what the laws below a claim repeat of the definition, so that the claim itself is what refuses

FLOOD_IN_LAWS = """
file: proofs/Ranges.antt
old: (within 1 9000 s.flood) e in
new: (within 1 9999 s.flood) e in
old: within_true 1 9000 s.flood
new: within_true 1 9999 s.flood
old: within_by 1 9000 s.flood
new: within_by 1 9999 s.flood
"""

UPPER_IN_LAWS = """
file: proofs/Codes.antt
old: Tens.{angle_is}
new: Tens.{angle_is, angle_le}
old: or_either (fails_among (heel_limit s) (upper s.flood (diffs b)) (diffs b) 10) _ e
new: or_either (fails_among (heel_limit s) 4000 (diffs b) 10) _ e
old: ten : fails_among (heel_limit s) (upper s.flood (diffs b)) (diffs b) 10 ≡ true
new: ten : fails_among (heel_limit s) 4000 (diffs b) 10 ≡ true
old: failing (heel_limit s) u (diffs b) 10 f
new: failing (heel_limit s) 4000 (diffs b) 10 f
old: leb (angle j) u) (is_below (ten_of b j)) r.fails
new: leb (angle j) 4000) (is_below (ten_of b j)) r.fails
old: (leb (angle j) u) t.0
new: (leb (angle j) 4000) t.0
old: leb-true (angle j) u v.1
new: leb-true (angle j) 4000 v.1
old: fails_at (heel_limit s) u (diffs b) j ≡ true
new: fails_at (heel_limit s) 4000 (diffs b) j ≡ true
old: le-leb (angle j) u (rw (angle_is j) at r)
new: le-leb (angle j) 4000 (angle_le j h)
old: among_found (heel_limit s) u (diffs b) j 10 h e
new: among_found (heel_limit s) 4000 (diffs b) j 10 h e
old: or_right (fails_among (heel_limit s) u (diffs b) 10)
new: or_right (fails_among (heel_limit s) 4000 (diffs b) 10)
file: proofs/Demand3.antt
old: Tens.{angle_is, angle_rises,
new: Tens.{angle_is, angle_le, angle_rises,
old: among_false heel up (diffs b) 10 (or_false (fails_among heel up (diffs b) 10) _ e42).0
new: among_false heel 4000 (diffs b) 10 (or_false (fails_among heel 4000 (diffs b) 10) _ e42).0
old: le-leb (angle j) up r) at f
new: le-leb (angle j) 4000 (angle_le j h)) at f
old: or_false (fails_among heel up (diffs b) 10) (ltb heel up
new: or_false (fails_among heel 4000 (diffs b) 10) (ltb heel up
"""

AREA_LIMIT_IN_LAWS = """
file: proofs/Codes.antt
old: 429718347 ≡ t₄
new: 429718348 ≡ t₄
old: ltb-true (area (diffs b) (upper s.flood (diffs b))) 429718347
new: ltb-true (area (diffs b) (upper s.flood (diffs b))) 429718348
old: ltb-false (area (diffs b) (upper s.flood (diffs b))) 429718347 e₄
new: omega (arith, ltb-false (area (diffs b) (upper s.flood (diffs b))) 429718348 e₄)
old: (ltb (area (diffs b) (upper s.flood (diffs b))) 429718347)
new: (ltb (area (diffs b) (upper s.flood (diffs b))) 429718348)
old: lt-ltb (area (diffs b) (upper s.flood (diffs b))) 429718347 a
new: lt-ltb (area (diffs b) (upper s.flood (diffs b))) 429718348 (omega (arith, a))
old: le-ltb (area (diffs b) (upper s.flood (diffs b))) 429718347
new: le-ltb (area (diffs b) (upper s.flood (diffs b))) 429718348
file: proofs/Demand3.antt
old: 429718347 ≡ false
new: 429718348 ≡ false
old: (ltb-false (area (diffs b) u) 429718347 e₄)
new: (le-trans (omega arith) (ltb-false (area (diffs b) u) 429718348 e₄))
old: 429718347 ≡ true
new: 429718348 ≡ true
old: ltb-true (area (diffs b) u) 429718347 e
new: ltb-true (area (diffs b) u) 429718348 e
old: 429718347 ≡ t₄
new: 429718348 ≡ t₄
old: (ltb (area (diffs b) (upper s.flood (diffs b))) 429718347)
new: (ltb (area (diffs b) (upper s.flood (diffs b))) 429718348)
"""

ORDER_IN_LAWS = """
file: proofs/Codes.antt
old: (cond t₂ (Err ShortAtHeel) (cond t₃ (Err ShortBeyond)
new: (cond t₃ (Err ShortBeyond) (cond t₂ (Err ShortAtHeel)
old: cases false true t₃ t₄
new: cases false true false t₄
old: cases false false true t₄
new: cases false t₂ true t₄
old: rw (t.0, t.1, fails_true s b f)
new: rw (t.0, fails_true s b f)
old: rw (t.0, t.1, fails_false s b n.beyond, lt-ltb
new: rw (t.0, fails_false s b n.beyond, t.1, lt-ltb
old: rw (t.0, t.1, fails_false s b n.beyond, le-ltb
new: rw (t.0, fails_false s b n.beyond, t.1, le-ltb
file: proofs/Demand3.antt
old: (cond t₂ (Err ShortAtHeel) (cond t₃ (Err ShortBeyond)
new: (cond t₃ (Err ShortBeyond) (cond t₂ (Err ShortAtHeel)
old: cases false true t₃ t₄
new: cases false true false t₄
old: cases false false true t₄
new: cases false t₂ true t₄
"""


def edit(crate, name, laws=""):
    """A must-fail edit of a crate, and what its laws repeat."""
    folder = support.CRATES / crate
    return (f"crates/{crate}", (folder / "must-fail" / f"{name}.edit").read_text() + laws)

REPLACED_STAYS_IN = """
file: crates/storing/src/lib.rt
old:     c.total = total::exchange(c.total, &c.holds[place], moment);
new:     c.total = total::exchange(c.total, h, moment);
file: crates/storing/specs/Storing.antt
old:       total = exchanged c.total (hold_at c n) w;
new:       total = exchanged c.total h w;
"""

DROP_PUTS_ON = """
file: crates/effects/src/lib.rt
old:         Request::DropLine(n) => storing::store_hold(c, *n, &record::no_hold(), 0),
new:         Request::DropLine(n) => { let figure = c.total; storing::store_hold(c, *n, &record::no_hold(), figure) }
file: crates/effects/specs/Effect.antt
old: (with_hold c n no_hold 0)
new: (with_hold c n no_hold c.total)
file: crates/operations/specs/Operations.antt
old: (with_hold c n no_hold 0)
new: (with_hold c n no_hold c.total)
file: crates/operations/proofs/Effects.antt
old: drop_operation c n ≡ taken (with_hold c n no_hold 0)
new: drop_operation c n ≡ taken (with_hold c n no_hold c.total)
old: with_hold c n no_hold 0 ≡ (drop_operation c n).after
new: with_hold c n no_hold c.total ≡ (drop_operation c n).after
file: crates/storing/proofs/Stores.antt
old: HoldDropped c n (with_hold c n no_hold 0)
new: HoldDropped c n (with_hold c n no_hold c.total)
old: (at_place n no_hold 0 p long), other_places n no_hold 0 p
new: (at_place n no_hold c.total p long), other_places n no_hold c.total p
"""

def clear_keeps(field):
    """A clear that leaves one field of the condition as it was."""
    fields = ("ship", "load", "columns", "holds", "total", "sums")
    after = "; ".join(f"{name} = {'c' if name == field else 'empty'}.{name}" for name in fields)
    return f"""
file: crates/effects/src/lib.rt
old:         Request::ClearLine => condition::clear(c),
new:         Request::ClearLine => {{ let kept = c.{field}; condition::clear(c); c.{field} = kept; }}
file: crates/effects/specs/Effect.antt
old: -- what a request puts into the condition, w being the moment of its hold. It is taken only where the request is answered with 00; elsewhere its value is free,
new: abbrev pub cleared_of : Condition → Condition
old: -- and these are the simplest
new: cleared_of c = record {{ {after} }}
old: effect_of c ClearLine w = empty
new: effect_of c ClearLine w = cleared_of c
file: crates/panel/specs/Step.antt
old: use Rattle.condition.specs.Condition.{{empty}}
new: use Rattle.effects.specs.Effect.{{cleared_of}}
old: outcome_of c ts n ClearLine = answered (taken empty)
new: outcome_of c ts n ClearLine = answered (taken (cleared_of c))
"""


KG_OF_ZERO = """
file: crates/weights/src/lib.rt
old: kg.max(1).min(GREATEST_KG)
new: kg.min(GREATEST_KG)
file: crates/weights/specs/Weights.antt
old: {Bool, ℕ, ◌+◌, ◌*◌, min, max, leb}
new: {Bool, ℕ, ◌+◌, ◌-◌, ◌*◌, min, max, leb}
old: max 1 (ceil_div
new: max (1 - s.tonnes) (ceil_div
file: crates/weights/proofs/Weights.antt
old: kg_up_lem : 0 < s.products → s.products
new: kg_up_lem : s.products
old: kg_up_lem h m = omega (arith, up_least h,
new: kg_up_lem m = omega (arith, pd,
file: crates/weights/proofs/Items.antt
old: kg_rounded h = kg_up_lem s some h
new: kg_rounded h = kg_up_lem s some
old: (kg_up_lem s some p l)
new: (kg_up_lem s some l)
"""

TOTAL_CAPPED = """
file: crates/panel/src/lib.rt
old: ghost use Rattle.std.specs.Prelude.{◌≡◌, ◌≤◌, length, Some, option_map};
new: ghost use Rattle.std.specs.Prelude.{◌≡◌, ◌≤◌, length, Some, option_map, min};
old: Replies 0 (total_reply figure) 0 result
new: Replies 0 (total_reply (min figure 1000000000)) 0 result
old: reply::total(out, figure))
new: reply::total(out, figure.min(1000000000)))
file: crates/panel/specs/Step.antt
old: ◌∷◌, ℕ, ltb, length}
new: ◌∷◌, ℕ, min, ltb, length}
old: reply = total_reply c.total
new: reply = total_reply (min c.total 1000000000)
"""


FAULTS = {
    "codes_10_and_11": Fault("codes 10 and 11 exchanged", [edit("line_codes", "theorem_10_and_11_exchanged")]),
    "five_deep": Fault("forms nested five deep are taken", [edit("line_codes", "theorem_five_deep")]),
    "flood_9999": Fault("FLOOD up to 9,999", [edit("limits", "theorem_flood_9999", FLOOD_IN_LAWS)]),
    "dist_and_girder": Fault("DIST and GIRDER of a wing exchanged when read", [("", DIST_AND_GIRDER)]),
    "void_and_grain": Fault("VOID and GRAIN of a partly filled part exchanged when read", [("", VOID_AND_GRAIN)]),
    "left_and_run": Fault("RUN and LEFT of a split exchanged when read", [("", LEFT_AND_RUN)]),
    "left_and_right": Fault("LEFT and RIGHT of a split exchanged when read", [("", LEFT_AND_RIGHT)]),
    "split_among_cells": Fault("a split is taken as a part of cells in a trimmed or voided hold", [("", SPLIT_AMONG_CELLS)]),
    "another_word_for_split": Fault("`board` is taken for `split`", [("", ANOTHER_WORD_FOR_SPLIT)]),
    "split_not_of_partial": Fault("a split is taken in no hold", [("", SPLIT_NOT_OF_PARTIAL)]),
    "kg_and_fs": Fault("KG and FS of a load exchanged when read", [("", KG_AND_FS)]),
    "new_and_old": Fault("the words `new` and `old` exchanged", [("", NEW_AND_OLD)]),
    "ship_forgets_load": Fault("a new ship forgets the load", [edit("storing", "theorem_ship_forgets_load")]),
    "room_128": Fault("15 below 128 bytes", [("", ROOM_128)]),
    "show_room_2200": Fault("16 below 2,200 bytes", [("", SHOW_ROOM_2200)]),
    "five_deep_behind_ship": Fault("five deep behind `ship`, four behind `show`", [edit("line_codes", "theorem_five_deep_behind_another_word")]),
    "six_deep_behind_show": Fault("forms nested six deep are taken behind `show`", [("", SIX_DEEP_BEHIND_SHOW)]),
    "unclosed_form": Fault("a form that is not closed is taken", [edit("line_codes", "theorem_unclosed_form")]),
    "space_behind_opening": Fault("a form spelled with a space behind each opening bracket", [edit("spelling", "theorem_space_behind_opening")]),
    "two_spaces": Fault("a form spelled with two spaces between items", [edit("spelling", "theorem_two_spaces")]),
    "full_at_once": Fault("23 at once, from the first column on", [("", FULL_AT_ONCE)]),
    "hatch_100": Fault("a hatch's depth OPEN + 100", [edit("cells", "theorem_hatch_100")]),
    "whole_millimetres": Fault("a wing's depth rounded up to whole mm", [edit("cells", "theorem_whole_millimetres")]),
    "area_down": Fault("a cell's area rounded down", [edit("cells", "theorem_area_rounded_down")]),
    "table_2m_470": Fault("the table's entry of 2.0 m 470", [edit("cells", "theorem_table_2m_470")]),
    "120_mm_per_metre": Fault("120 mm more for each metre above 8.0 m", [edit("cells", "theorem_120_mm_per_metre")]),
    "quarter_square": Fault("w × g − slope × w²/4 for what a cell holds", [edit("cells", "theorem_lip_with_quarter_square")]),
    "old_wedge": Fault("the line of 25 degrees goes through deck and floor", [edit("slack", "theorem_old_wedge_for_all")]),
    "slack_moment_down": Fault("the moment of a triangle of void or grain rounded down", [edit("slack", "theorem_moment_rounded_down")]),
    "no_second_term": Fault("a line from deck to floor without h³/(24 s²)", [edit("slack", "theorem_no_second_term")]),
    "slope_not_squared": Fault("a line from deck to floor with h³/(24 s)", [edit("slack", "theorem_slope_not_squared")]),
    "lesser_breadth": Fault("two-sevenths of the lesser breadth taken off a board", [edit("boards", "theorem_of_the_lesser_breadth")]),
    "rest_left_out": Fault("a split without the rest of LENGTH", [edit("boards", "theorem_rest_left_out")]),
    "replaced_stays_in": Fault("the moment of a replaced or dropped hold stays in the figure, that of the new one is taken off", [("", REPLACED_STAYS_IN)]),
    "new_moment_not_put_on": Fault("the moment of a new hold is not put on", [edit("total", "theorem_new_moment_not_put_on")]),
    "drop_puts_on": Fault("a drop puts the figure on once more", [("", DROP_PUTS_ON)]),
    "clear_keeps_the_figure": Fault("a clear keeps the figure", [("", clear_keeps("total"))]),
    "empty_with_a_moment": Fault("a panel newly started or cleared has a moment of 1", [edit("condition", "theorem_empty_with_a_moment")]),
    "ship_forgets_the_figure": Fault("a new ship forgets the figure", [edit("storing", "theorem_ship_forgets_the_figure")]),
    "total_capped": Fault("total shows at most 1,000,000,000", [("", TOTAL_CAPPED)]),
    "clear_keeps_the_items": Fault("a clear keeps the weight items", [("", clear_keeps("sums"))]),
    "empty_with_items": Fault("a panel newly started or cleared has a tonne", [edit("condition", "theorem_empty_with_items")]),
    "weighed_removes_the_items": Fault("weighed removes the weight items", [edit("operations", "theorem_weighed_removes_the_items")]),
    "load_removes_the_items": Fault("a load line, and weighed, remove the weight items", [edit("storing", "theorem_load_removes_the_items")]),
    "unweigh_keeps_the_products": Fault("an unweigh keeps the products", [edit("operations", "theorem_unweigh_keeps_the_products")]),
    "sum_of_400001": Fault("weight items together up to 400,001 tonnes", [edit("weights", "theorem_sum_of_400001")]),
    "kg_of_zero": Fault("a KG of 0 made by weighed is stored", [("", KG_OF_ZERO)]),
    "26_as_25": Fault("25 for a sum above 400,000 tonnes", [edit("operations", "theorem_26_as_25")]),
    "voided_100": Fault("100 per cent for `voided`", [edit("grain", "theorem_voided_100")]),
    "sine_of_40": Fault("the sine of 40 degrees 642,700", [edit("arms", "theorem_sine_of_40")]),
    "42_beyond_upper": Fault("42 also for an angle above UPPER", [edit("stability", "theorem_42_beyond_upper", UPPER_IN_LAWS)]),
    "43_one_more": Fault("43 below 429,718,348", [edit("stability", "theorem_area_limit_one_more", AREA_LIMIT_IN_LAWS)]),
    "42_before_41": Fault("42 tested before 41", [edit("stability", "theorem_42_before_41", ORDER_IN_LAWS)]),
    "plus_for_minus": Fault("`+` for the minus sign", [edit("reply", "theorem_plus_for_minus")]),
}
