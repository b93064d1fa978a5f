"""docs/clauses.txt is what tools/clauses writes of the sources, and lists calls and definitions of each kind.
tools/rule finds a rule by its words."""
import os
import re
import subprocess

from tests.library.checks import expect, main
from tests.library.paths import TOP

PAGE = os.path.join(TOP, "docs/clauses.txt")
# A call of a type, one of a trait, a law, a function of the program, and a definition: what each line has.
LISTED = {"Debt::draw": "[answer, entered, last]", "Keep::rows": "[reads, errs]", "tables_stand_for_one": "[law]",
          "Stop::status": "[status]", "Machines": "machines"}

# What tools/rule finds for the words of a rule: the definition, the code with its clause, and examples or tests.
RULES = {
    "six months": ("six_months_later", "six_months_after [value]", "WorkedSixMonths"),
    "309": ("declare_refusals", "may_declare [answer]", "WorkedDeclarations", "limits.py"),
    "NotLater": ("extend_refusals", "extend [step]", "WorkedExtensions", "extended_to_an_earlier_day"),
    "surplus": ("sell_step", "sell [step]", "small_and_large.txt"),
    "408": ("within_window", "find_room [reads]", "a_day.txt"),
    "BookTaken": ("make_book", "plan_book [reads]", "book_tests.rt"),
    "status end period": ("status_by", "status_by [value]", "five_days_ignored", "WorkedStatuses"),
    "requests session": ("HasRoom", "answer_all [room]"),
    "604": ("in_order", "accept_booking [answer]", "RefusesEnd", "borders.py"),
    "302": ("numbered_step", "(is_ahead p seq, Refusal.SeqAhead)", "enter [step]", "description.py"),
    "303": ("(p.standing.held, Refusal.Held)", "redeem [step]", "WorkedHolds", "two_lives.txt"),
    "310": ("redeem_refusals", "redeem [step]", "WorkedRedemptions", "redeemed_one_penny_short"),
    "402": ("present_receipts", "show_receipts [stays, acted]", "lost_twice.txt"),
    "403": ("broker_commands", "show_pledge [stays, acted]", "two_lives.txt"),
    "411": ("next_terms", "next_terms [value]", "WorkedVersions", "description.py"),
    "511": ("KnowsSchema", "known_schema [knows]", "newer_schema_moved", "migration.py"),
    "hexadecimal": ("secret_of_text", "Secret::of_text", "WorkedTexts"),
    "order rows": ("pledge_csv_rows", "put_pledges", "more_than_a_page.txt"),
    "accrues": ("after_charges", "after_days", "WorkedInterest"),
    "ask": ("a booking replaces any other", "ask_once [step]", "WorkedAskings"),
    "WindowFull": ("a window's capacity (408)", "within_window", "find_room [reads]"),
    "AgreementStays": ("laws_of_steps [agreement]",),
    "laws of texts": ("laws_of_texts [fits, read, hosts, taken]",),
    "longest article": ("most_article_bytes", "`text` [`value`]"),
    "older schema": ("AcceptsSchema", "expect_ours", "migration"),
    "no key opens another": ("gate_step", "`gate` [`reads`]", "two_brokers.txt", "gate_for_any_key"),
    "711": ("receipt_faults", "one [value]", "receipts [value]", "WorkedReceiptLists", "limits.py"),
}
# What has the same name as a refusal, but is none.
NOT_FOUND = {
    "303": ("Lends", "hold_step", "pages_receipts.py"), "203": ("debt_fault_code",),
    # A name of the kit, and a clause that ends before the next function.
    "crash": ("connect_path",), "import key": ("rows_each",),
}


def the_page_is_that_of_the_sources():
    made = subprocess.run([os.path.join(TOP, "tools/clauses"), "print"], capture_output=True, timeout=60)
    expect("tools/clauses print", (made.returncode, made.stderr), (0, b""))
    with open(PAGE, "rb") as it:
        expect("docs/clauses.txt is what tools/clauses writes: run it where a comment or a contract was changed",
               it.read() == made.stdout, True)


def it_lists_calls_of_each_kind():
    with open(PAGE, encoding="utf-8") as it:
        lines = re.sub("\n {4,}", " ", it.read()).split("\n")
    for name, said in LISTED.items():
        found = any(re.match(f"  {name} .*{re.escape(said)}", line) for line in lines)
        expect(f"a line on {name} with {said}", found, True)
    listed = [line for line in lines if line.startswith("  ") and not line.startswith("   ")]
    expect("how many there are", len(listed) > 300, True)


def found_by(*words):
    return subprocess.run([os.path.join(TOP, "tools/rule"), *words], capture_output=True, text=True, timeout=60)


def a_rule_is_found_by_its_words():
    for words, wanted in RULES.items():
        found = found_by(*words.split()).stdout
        expect(f"what tools/rule does not find for {words}", [it for it in wanted if it not in found], [])
    for words, unwanted in NOT_FOUND.items():
        found = found_by(words).stdout
        expect(f"what tools/rule finds for {words} besides", [it for it in unwanted if it in found], [])
    found = found_by("no such words")
    expect("words that nothing has", (found.returncode, found.stdout), (1, ""))


main(the_page_is_that_of_the_sources, it_lists_calls_of_each_kind, a_rule_is_found_by_its_words)
