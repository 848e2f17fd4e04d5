#!/usr/bin/env python3
"""Checks the model against worked cases and published vectors, and what the scripts reach."""

from collections import Counter

import generate
import model

ONE = "00000000000000000000000000000001"
NONE = "00000000000000000000000000000000"
SALTED = "01000000000000000000000000000000"
LARGEST = model.LARGEST_NUMBER

ROOMY = "chained:40:1:9:8:64:4000 chained:45:1:9:8:64:4000"
DEEPEST_NODES = f"flat:40:7:7:{2**21}:{41 * 2**21}"
DEEPEST_LEAVES = f"chained:45:1:9:{2**21}:{2**20}:{68 + 57 * 2**20}"


def digest_ending(byte):
    return "00" * 31 + byte


SHEET_7 = "01090100000007" + digest_ending("1d") + "0000000000000005"
STEP_7 = digest_ending("0a") + "0000000000000000"
FILE_7 = "0109010000000700000000" + ONE + NONE + "0000000000000005" + STEP_7
FORGED_7 = FILE_7.replace(ONE + NONE, NONE + SALTED)
TEXT_7 = "0000000007" + ONE + NONE + "0000000000000005"
FORGED_TEXT_7 = "0000000007" + NONE + SALTED + "0000000000000005"


def answers(*calls):
    session = model.Session()
    return [session.answer(call) for call in calls]


def last_answer(*calls):
    return answers("use single rehearsal", *calls)[-1]


# Worked cases: the single kind and the rehearsal digest


def joining_reaches_the_largest_number():
    assert last_answer(f"join {LARGEST} 0") == f"amount {LARGEST}"
    assert last_answer(f"join {LARGEST} 1") == "refused 7 at 0"


def rehearsal_digest_adds_bytes():
    assert last_answer("digest ff02") == "digest " + digest_ending("01")
    assert last_answer("digest -") == "digest " + digest_ending("00")


def files_have_their_lengths():
    single = model.House(model.AMOUNT_KINDS["single"], model.DIGESTS["rehearsal"])
    purse = model.House(model.AMOUNT_KINDS["purse"], model.DIGESTS["rehearsal"])
    assert single.file_length(0) == 51
    assert single.file_length(1) == 91
    assert purse.file_length(20) == 1355


def depth_twenty_opens():
    custodian = f"custodian {DEEPEST_NODES} {DEEPEST_LEAVES}"
    assert last_answer(custodian, "open 7 20") == "opened"
    assert last_answer(custodian, "open 7 21") == "refused 8 at 0"


def leaf_numbers_end_at_the_depth():
    # The rehearsal digest does not tell left from right.
    for leaf, answer in [(0, "place 2"), (1, "place 3"), (2, "refused 20 at 0")]:
        file = FILE_7[:21] + str(leaf) + FILE_7[22:]
        assert last_answer(f"check {SHEET_7} {file}") == answer


def closing_without_lines_has_a_root():
    sheet = last_answer(f"custodian {ROOMY}", "open 7 0", "close", "sheet 7 47")
    assert sheet == "wrote 47 01090000000007" + digest_ending("09") + "0" * 16


LEDGER_7 = [f"custodian {ROOMY}", "open 7 1", f"enter {ONE} {NONE} 5", "close"]


def closing_with_one_line_has_its_papers():
    assert answers("use single rehearsal", *LEDGER_7)[1:] == [
        "custodian",
        "opened",
        "leaf 0",
        "closed",
    ]
    assert last_answer("digest " + TEXT_7) == "digest " + digest_ending("0d")
    assert last_answer("digest 020000000700000001") == "digest " + digest_ending("0a")
    assert last_answer(*LEDGER_7, "sheet 7 47") == "wrote 47 " + SHEET_7
    assert last_answer(*LEDGER_7, "sheet 7 49") == "wrote 47 " + SHEET_7 + "eeee"
    assert last_answer(*LEDGER_7, "sheet 7 46") == "refused 15 at 0"
    assert last_answer(*LEDGER_7, "sheet 8 47") == "refused 14 at 0"
    assert last_answer(*LEDGER_7, "issue 7 0 91") == "wrote 91 " + FILE_7
    assert last_answer(*LEDGER_7, "issue 7 1 91") == "refused 14 at 0"


LAID_7 = [f"auditor {ROOMY}", f"lay {SHEET_7}"]


def file_is_counted_once():
    counted = [*LAID_7, f"present {FILE_7}"]
    assert last_answer(*counted) == "counted 2"
    assert last_answer(*counted, "tally") == "tally 5 of 1"
    assert last_answer(*counted, f"present {FILE_7}") == "counted before 2"
    assert last_answer(*counted, f"present {FILE_7}", "tally") == "tally 5 of 1"
    assert last_answer(*counted, "texts 2") == "no texts eeee"


def forged_file_shows_two_texts():
    shown = [*LAID_7, f"present {FILE_7}", f"present {FORGED_7}"]
    both = TEXT_7 + FORGED_TEXT_7
    assert last_answer(f"check {SHEET_7} {FORGED_7}") == "place 2"
    assert last_answer(*shown) == "refused 22 at 0"
    assert last_answer(*shown, f"present {FILE_7}") == "refused 23 at 0"
    assert last_answer(*shown, "present -") == "refused 23 at 0"
    assert last_answer(*shown, "tally") == "tally 5 of 1"
    assert last_answer(*shown, "texts 90") == "texts 45 45 " + both
    assert last_answer(*shown, "texts 91") == "texts 45 45 " + both + "ee"
    assert last_answer(*shown, "texts 89") == "refused 15 at 0"
    assert last_answer(*shown, f"lay {SHEET_7}", "texts 0") == "no texts -"
    assert last_answer(*shown, "lay -", "texts 90") == "texts 45 45 " + both


def notebook_needs_two_nodes_at_depth_one():
    leaves = "chained:45:1:9:8:1:125"
    for room, answer in [(1, "refused 5 at 0"), (2, "counted 2")]:
        nodes = f"chained:40:1:9:8:{room}:{68 + room * 52}"
        auditor = f"auditor {nodes} {leaves}"
        assert last_answer(auditor, f"lay {SHEET_7}", f"present {FILE_7}") == answer


# The published vectors of SHA-256


VECTORS = [
    (b"", "e3b0c44298fc1c149afbf4c8996fb92427ae41e4649b934ca495991b7852b855"),
    (b"abc", "ba7816bf8f01cfea414140de5dae2223b00361a396177a9cb410ff61f20015ad"),
    (
        b"abcdbcdecdefdefgefghfghighijhijkijkljklmklmnlmnomnopnopq",
        "248d6a61d20638b8e5c026930c3e6039a33ce45964ff2167f6ecedd419db06c1",
    ),
    (
        b"abcdefghbcdefghicdefghijdefghijkefghijklfghijklmghijklmn"
        b"hijklmnoijklmnopjklmnopqklmnopqrlmnopqrsmnopqrstnopqrstu",
        "cf5b16a778af8380036ce59e7b0492370b249b11e8f07a51afac45037afee9d1",
    ),
]


def digests_are_the_published_ones():
    for text, digest in VECTORS:
        calls = ["use single sha256", "digest " + model.show_bytes(text)]
        assert answers(*calls)[-1] == "digest " + digest


def texts_have_a_greatest_length():
    assert last_answer("digest 65536*01") == "digest " + digest_ending("00")
    assert last_answer("digest 65537*01") == "refused 1 at 0"
    assert last_answer("digest 4294967295*01") == "refused 1 at 0"


# Lines that are no calls, and calls before their time


def form_is_judged_before_time():
    calls = ["digest 0", "digest 00", "join 5 5", "join 5 x", "room", "store flat:1:1:1:2:4"]
    expected = ["unreadable", "not now", "not now", "unreadable", "not now", "store"]
    assert answers(*calls) == expected
    assert answers("store flat:1:1:1:2:4", "use purse sha256", "room")[-1] == "not now"
    assert last_answer("join 5 9223372036854775808") == "unreadable"
    assert last_answer("join 1+2+3+4 0") == "unreadable"


def store_on_unfit_memory_has_no_keys():
    store = "store flat:1:1:1:2:3"
    assert last_answer("measure flat:1:1:1:2:3") == "refused 2 at 0"
    assert last_answer("measure flat:1:1:1:2:4") == "fits"
    assert last_answer(store) == "store"
    assert last_answer(store, "put 1 1 00") == "refused 3 at 0"
    assert last_answer(store, "room") == "room 0"


# What generated scripts reach


SHEET_ROWS = [16, 17, 8, 6]
FILE_ROWS = [18, 19, 20, 6, 7, 21]

REFUSALS = {
    "digest": [1],
    "amount": [6],
    "join": [7],
    "measure": [2],
    "put": [3, 4, 5],
    "get": [3, 4],
    "held": [3],
    "clear": [3],
    "open": [8, 9, 10, 11, 5],
    "enter": [12, 13, 7],
    "sheet": [14, 15],
    "issue": [14, 15],
    "withdraw": [14],
    "check": SHEET_ROWS + FILE_ROWS,
    "lay": SHEET_ROWS + [11],
    "present": [23] + FILE_ROWS + [22, 5],
    "texts": [15],
}

ANSWERS = {
    "use": ["ready"],
    "digest": ["digest"],
    "amount": ["amount"],
    "join": ["amount"],
    "measure": ["fits"],
    "store": ["store"],
    "put": ["put"],
    "get": ["found", "absent"],
    "held": ["held"],
    "clear": ["cleared"],
    "room": ["room"],
    "custodian": ["custodian"],
    "open": ["opened"],
    "enter": ["leaf"],
    "close": ["closed"],
    "abandon": ["abandoned"],
    "sheet": ["wrote"],
    "issue": ["wrote"],
    "withdraw": ["withdrawn"],
    "check": ["place"],
    "fields": ["fields"],
    "auditor": ["auditor"],
    "lay": ["laid"],
    "present": ["counted", "counted before"],
    "tally": ["tally"],
    "texts": ["texts", "no texts"],
}

# Calls that always have their time.
ALWAYS = ["use", "measure", "store"]

SEEDS = range(1, 7)
CALLS = 1500


def answer_form(answer):
    """The words of an answer without its values."""
    for form in ["unreadable", "not now", "no texts", "counted before"]:
        if answer.startswith(form):
            return form
    words = answer.split(" ")
    return " ".join(words[:2]) if words[0] == "refused" else words[0]


def defined_answers():
    """Every call with every form of answer it can have."""
    defined = set()
    for name, forms in ANSWERS.items():
        defined.update((name, form) for form in forms)
        defined.add((name, "unreadable"))
        if name not in ALWAYS:
            defined.add((name, "not now"))
        defined.update((name, f"refused {number}") for number in REFUSALS.get(name, []))
    return defined


def reached_answers(kind):
    """How often each call of the kind's scripts has each form of answer."""
    reached = Counter()
    for seed in SEEDS:
        session = model.Session()
        for line in generate.generate(kind, seed, CALLS):
            if model.is_call(line):
                name = line.split(" ")[0]
                form = answer_form(session.answer(line))
                if name in ANSWERS:
                    reached[name, form] += 1
    return reached


def print_coverage(by_kind):
    print("refusals reached, by kind of script")
    print("refusal " + "".join(f"{kind:>10}" for kind in by_kind))
    for number in model.Why:
        counts = [
            sum(count for (_, form), count in reached.items() if form == f"refused {number}")
            for reached in by_kind.values()
        ]
        print(f"{number:7} " + "".join(f"{count:>10}" for count in counts))


def scripts_reach_every_answer():
    by_kind = {kind: reached_answers(kind) for kind in generate.KINDS}
    print_coverage(by_kind)
    reached = set().union(*by_kind.values())
    missing, unknown = defined_answers() - reached, reached - defined_answers()
    assert not missing, f"never reached: {sorted(missing)}"
    assert not unknown, f"reached but not defined: {sorted(unknown)}"


def scripts_are_settled_by_their_seed():
    for kind in generate.KINDS:
        one, other = generate.generate(kind, 5, 300), generate.generate(kind, 5, 300)
        assert one == other
        assert one != generate.generate(kind, 6, 300)
        assert sum(model.is_call(line) for line in one) == 300


CHECKS = [
    joining_reaches_the_largest_number,
    rehearsal_digest_adds_bytes,
    files_have_their_lengths,
    depth_twenty_opens,
    leaf_numbers_end_at_the_depth,
    closing_without_lines_has_a_root,
    closing_with_one_line_has_its_papers,
    file_is_counted_once,
    forged_file_shows_two_texts,
    notebook_needs_two_nodes_at_depth_one,
    digests_are_the_published_ones,
    texts_have_a_greatest_length,
    form_is_judged_before_time,
    store_on_unfit_memory_has_no_keys,
    scripts_reach_every_answer,
    scripts_are_settled_by_their_seed,
]


def main():
    for check in CHECKS:
        check()
        print("holds:", check.__name__.replace("_", " "))


if __name__ == "__main__":
    main()
