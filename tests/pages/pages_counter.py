"""What the broker's page once said at the counter that was not so, each as it was found; in a real browser, in front of
the program."""
import datetime
import re

from tests.library.checks import expect
from tests.library.dates import six_months_after, today
from tests.library.pages.browser import Cut, Pages
from tests.library.pages.steps import (
    a_pledge_at_the_counter, ago, agree, an_open_book, book_text, browser, command, entries, fill_book, find,
    in_short, in_words, is_told_quietly, main, make_book, no_faults, open_book, part, receipts_made,
    secret_of, send_taking, take_a_ring, the_book_is_read, the_clock_goes_on, unfold,
)


ENTER = "\ue007"


def there_is_no_paper():
    expect("no receipt is shown", browser.run("return document.querySelectorAll('.paper').length"), 0)


def redeem_by(pages, receipt, pence=10000):
    expect("redeemed", pages.session.bearer(receipt, "POST", "/books/7/held/redeem", {"paid": pence})[0], 200)


def a_dead_receipt_is_not_printed_as_new():
    with an_open_book() as pages:
        receipt, _ = take_a_ring()
        redeem_by(pages, receipt)
        part("take")
        send_taking(article="Gold ring", ref="A1", amount="100")
        browser.says(f"Pledge 1 has this reference since {in_short(today())}.", "#taking")
        browser.says("Redeemed on", "#taken-receipt")
        there_is_no_paper()
        expect(
            "and the field is marked",
            browser.run("return document.activeElement.name + document.activeElement.ariaInvalid"), "reftrue",
        )
        second = pages.session.open_pledge(2)
        pages.session.broker("POST", "/books/7/pledges/2/declare", {"paper": "sworn"})
        send_taking(article="Gold ring", ref="A2", amount="100")
        browser.says("Pledge 2 has this reference since", "#taking")
        there_is_no_paper()
        expect("nothing was taken", pages.session.broker("GET", "/books/7/pledges/3")[0], 404)
        expect("its receipt is dead", pages.session.bearer(second, "GET", "/books/7/held")[0], 404)
        no_faults()


# Another till takes the same pledge, and declares its receipt lost, after this page has looked and before it sends.
MEANWHILE = """
const real = window.fetch;
window.fetch = async (path, how) => {
  if (how.method === "POST" && path.endsWith("/pledges")) {
    window.fetch = real;
    await real(path, how);
    await real(path + "/1/declare", { ...how, body: '{"paper":"sworn"}' });
  }
  return real(path, how);
};"""


def a_receipt_that_dies_while_it_is_taken_is_not_printed():
    with an_open_book() as pages:
        the_book_is_read()
        browser.run(MEANWHILE)
        part("take")
        send_taking(article="Gold ring", ref="A1", amount="100")
        browser.says("Pledge 1 has this reference since", "#taking")
        there_is_no_paper()


def a_receipt_has_the_terms_of_its_pledge():
    """Newer terms that another till put are those of the pledge; and a receipt that is printed again keeps its own."""
    with an_open_book() as pages:
        the_book_is_read()
        put = {"keep_after": 0, "keep_before": 1000000, "rate": 1000, "version": 2}
        expect("newer terms", pages.session.broker("POST", "/books/7/terms", put), (200, {"version": 2}))
        take_a_ring()
        browser.says("£3.00 in 30 days on £100", ".paper")
        browser.says("30p in 30 days, after the end nothing", ".paper")
        put = {**put, "rate": 0, "version": 3}
        expect("newer terms again", pages.session.broker("POST", "/books/7/terms", put), (200, {"version": 3}))
        browser.ask("POST", "/refresh", {})
        find("1")
        command("Print the receipt again", "Print the receipt again")
        agree()
        browser.says("£3.00 in 30 days on £100", ".paper")
        _, text = pages.session.broker("GET", "/books/7/export")
        expect("no terms were put by the page", text.count("\nT,"), 3)
        no_faults()


def a_new_receipt_that_another_replaced_is_not_printed():
    with a_pledge_at_the_counter() as (pages, _):
        browser.says("£100.00 owed today", "#statement")
        browser.run(DECLARED_TWICE)
        command("Replace a lost receipt", "Make a new receipt")
        agree()
        browser.says("another one took its place at the same time", "#commands")
        there_is_no_paper()
        expect("three receipts were made", len(receipts_made(pages, 1)), 3)


def a_receipt_that_was_redeemed_is_not_left_to_be_printed():
    """A pledge that was taken twice by mistake is redeemed by its receipt, and the clerk goes back for the paper."""
    with an_open_book() as pages:
        the_book_is_read()
        take_a_ring()
        receipt, _ = take_a_ring(reference="A2")
        find("2")
        command("Redeem by the paper", "Redeem", receipt=receipt, amount="100")
        agree()
        browser.says("£100.00 was paid", "#commands")
        part("take")
        browser.says("This receipt is not live: pledge 2 was redeemed with it on", "#taking")
        there_is_no_paper()
        no_faults()


def a_receipt_with_the_old_end_is_not_left_to_be_printed():
    with an_open_book():
        the_book_is_read()
        take_a_ring()
        find("1")
        command("Extend the period", "Extend", until=str(ago(-400)))
        agree()
        browser.says(f"The period ends on {in_words(ago(-400))}.", "#commands")
        part("take")
        browser.says("The period’s end was moved since pledge 1 was taken", "#taking")
        there_is_no_paper()
        no_faults()


def a_receipt_that_another_till_replaced_is_not_left_to_be_printed():
    with a_pledge_at_the_counter() as (pages, receipt):
        the_book_is_read()
        command("Print the receipt again", "Print the receipt again")
        agree()
        browser.says("It was looked at just now: it is live.", "#commands")
        pages.session.broker("POST", "/books/7/pledges/1/declare", {"paper": "sworn"})
        browser.press("#read-book")
        browser.says("This receipt is not live: a newer one took its place on", "#commands")
        there_is_no_paper()
        no_faults()


def a_receipt_that_another_till_replaced_is_not_called_live_any_more():
    with a_pledge_at_the_counter() as (pages, receipt):
        the_book_is_read()
        find(receipt)
        browser.says("This receipt is live.", "#commands")
        pages.session.broker("POST", "/books/7/pledges/1/declare", {"paper": "sworn"})
        browser.press("#read-book")
        browser.says("This receipt is not live: a newer one took its place on", "#commands")
        newest = f"1-{receipts_made(pages, 1)[-1].split(',')[5]}"
        find(newest)
        browser.says("This receipt is live.", "#commands")
        browser.press("#read-book")
        browser.rests()
        browser.says("This receipt is live.", "#commands")
        no_faults()


DEAD = "This receipt is not live"
# Counts what is printed, and prints nothing.
COUNT_PRINTS = "window.printed = 0; window.print = () => { window.printed += 1; };"


def a_dead_receipt_is_not_printed_by_its_button():
    """Two tills replace the same lost receipt in the same minute. Before the book is read again, the first till still
    shows its paper: its receipt is read when it is to be printed, and when the clerk comes back to it."""
    with a_pledge_at_the_counter() as (pages, receipt):
        the_book_is_read()
        browser.run(COUNT_PRINTS)
        command("Replace a lost receipt", "Make a new receipt")
        agree()
        browser.says("A new receipt is below.", "#commands")
        browser.rests()
        browser.press("#new-receipt button", "Print the receipt")
        browser.until("return window.printed === 1", "a live receipt is printed")
        browser.rests()
        with browser.without_a_line():
            browser.press("#new-receipt button", "Print the receipt")
            browser.says("It could not be read just now whether this receipt is", "#new-receipt", patience=20)
        expect("what can't be known is not printed", browser.run("return window.printed"), 1)
        browser.faults()
        declare(pages, 1)
        browser.press("#new-receipt button", "Print the receipt")
        browser.says(f"{DEAD}: a newer one took its place", "#commands > .notice")
        there_is_no_paper()
        expect("a dead one is not printed", browser.run("return window.printed"), 1)
        command("Print the receipt again", "Print the receipt again")
        agree()
        browser.says("It was looked at just now: it is live.", "#commands")
        browser.rests()
        declare(pages, 1)
        part("today")
        browser.says("Coming", "#sheet")
        browser.run("location.hash = '#pledge=1'")
        browser.says(f"{DEAD}: a newer one took its place", "#commands > .notice")
        there_is_no_paper()
        take_a_ring(reference="A2")
        declare(pages, 2)
        part("today")
        browser.says("Coming", "#sheet")
        part("take")
        browser.says(f"{DEAD}: a newer one took its place", "#taking .notice")
        there_is_no_paper()
        browser.rests()
        find("2")
        command("Print the receipt again", "Print the receipt again")
        agree()
        browser.says("It was looked at just now: it is live.", "#commands > .notice")
        declare(pages, 2)
        the_clock_goes_on(61)
        browser.says(f"{DEAD}: a newer one took its place", "#commands > .notice")
        there_is_no_paper()
        no_faults()


def a_paper_is_made_of_the_pledge_as_it_is_now():
    """Another till moved the end, or sold the article, since the pledge was shown: bags are pulled by what their tags
    say."""
    with Pages() as pages:
        make_book(pages, terms=False)
        fill_book(pages, book_text([
            ("Ring", "A1", 9000, ago(30), "", "no"), ("Clock", "A2", 9000, ago(220), "", "no"),
        ]))
        open_book(pages)
        the_book_is_read()
        find("1")
        browser.says("Pledge 1 of book 7", "#statement")
        for title, button, says in (
            ("Print a tag for the bag", "Show the tag", "Until {}"),
            ("Print the receipt again", "Print the receipt again", "{}, as extended"),
            ("Replace a lost receipt", "Make a new receipt", "{}, as extended"),
        ):
            browser.rests()
            moved = datetime.date.fromisoformat(re.search(
                "^Ends (.*)$", pages.session.broker("GET", "/books/7/pledges/1")[1], re.M,
            )[1]) + datetime.timedelta(days=30)
            pages.session.broker("POST", "/books/7/pledges/1/extend", {"until": str(moved)})
            command(title, button)
            agree()
            browser.says(says.format(in_short(moved)), "#new-receipt .paper")
        find("2")
        browser.says("Pledge 2 of book 7", "#statement")
        browser.rests()
        pages.session.broker("POST", "/books/7/pledges/2/sell", {"net": 20000})
        command("Print the receipt again", "Print the receipt again")
        agree()
        browser.says("The receipt only shows what became of the pledge", "#commands > .notice")
        no_faults()


def no_tag_is_made_of_a_pledge_that_is_over():
    """Another till, or the pawnor, redeemed it since it was shown: its tag would say until when the article is kept."""
    with a_pledge_at_the_counter() as (pages, receipt):
        the_book_is_read()
        browser.rests()
        unfold("Print a tag for the bag")
        redeem_by(pages, receipt)
        browser.press(".action[open] button", "Show the tag")
        browser.says("Redeemed on", "#statement")
        browser.says("The pledge is redeemed or sold already. Nothing more is done on it.", "#commands")
        there_is_no_paper()
        no_faults()


def a_declaration_that_was_not_sent_does_not_have_the_lost_receipt_printed():
    """Nobody knows whether it was sent: the next press of its own button shows that, and not the button that prints the
    receipt that was lost."""
    with a_pledge_at_the_counter() as (pages, receipt):
        the_book_is_read()
        browser.rests()
        command("Replace a lost receipt", "Make a new receipt")
        browser.element("dialog")
        with browser.without_a_line():
            browser.press("dialog button", "Make a new receipt")
            browser.says("so a new receipt may have been made", "#commands")
            said = browser.text("#commands")
            expect("it sends nobody to the lost one", "Print the receipt again” shows" in said, False)
            browser.says("Press “Make a new receipt” again: if one was made, it is shown then", "#commands")
        expect("none was made", len(receipts_made(pages, 1)), 1)
        browser.faults()
        command("Replace a lost receipt", "Make a new receipt")
        browser.says("The reply to the press before was lost. It has made no new receipt so far.", "dialog")
        browser.press("dialog button", "Make a new receipt")
        browser.says("A new receipt is below.", "#commands")
        expect("one was made", len(receipts_made(pages, 1)), 2)
        expect("it is another", browser.text(".paper .secret").strip() != receipt, True)
        no_faults()


def declare(pages, number):
    made = pages.session.broker("POST", f"/books/7/pledges/{number}/declare", {"paper": "sworn"})
    expect("another till makes a new receipt", made[0], 200)


def a_paper_with_an_end_that_another_till_moved_is_not_printed():
    with a_pledge_at_the_counter() as (pages, _):
        the_book_is_read()
        browser.run(COUNT_PRINTS)
        command("Print the receipt again", "Print the receipt again")
        agree()
        browser.says("It was looked at just now: it is live.", "#commands")
        browser.rests()
        pages.session.broker("POST", "/books/7/pledges/1/extend", {"until": str(ago(-400))})
        browser.press("#new-receipt button", "Print the receipt")
        browser.says("The pledge has changed since this paper was made", "#commands > .notice")
        there_is_no_paper()
        expect("it is not printed", browser.run("return window.printed"), 0)
        take_a_ring(reference="A2")
        browser.press("#taken-receipt button", "Show the tag for the bag")
        pages.session.broker("POST", "/books/7/pledges/2/extend", {"until": str(ago(-400))})
        part("today")
        browser.says("Coming", "#sheet")
        part("take")
        browser.says("The pledge has changed since this paper was made", "#taking .notice")
        there_is_no_paper()
        no_faults()


def a_receipt_that_died_while_the_tag_was_shown_is_not_shown_again():
    with an_open_book() as pages:
        the_book_is_read()
        take_a_ring()
        browser.press("#taken-receipt button", "Show the tag for the bag")
        browser.press("#taken-receipt button", "Show the receipt")
        browser.rests()
        browser.says("Its receipt is ready to print.", "#taking .notice")
        browser.press("#taken-receipt button", "Show the tag for the bag")
        declare(pages, 1)
        browser.press("#taken-receipt button", "Show the receipt")
        browser.says(f"{DEAD}: a newer one took its place", "#taking .notice")
        there_is_no_paper()
        browser.until("return document.activeElement.matches('#taking .notice')", "the focus on the reason")
        no_faults()


def a_tag_with_an_end_that_another_till_moved_is_not_printed():
    """The other till is told to print the tag anew, and the first one still shows the old tag."""
    with a_pledge_at_the_counter() as (pages, _):
        the_book_is_read()
        browser.run(COUNT_PRINTS)
        command("Print a tag for the bag", "Show the tag")
        browser.says("Until ", ".tag")
        browser.rests()
        browser.press("#new-receipt button", "Print the tag")
        browser.until("return window.printed === 1", "a tag that is right is printed")
        with browser.without_a_line():
            browser.press("#new-receipt button", "Print the tag")
            browser.says("It could not be read just now whether this tag is still right", "#new-receipt", patience=20)
        browser.faults()
        pages.session.broker("POST", "/books/7/pledges/1/extend", {"until": str(ago(-400))})
        browser.press("#new-receipt button", "Print the tag")
        browser.says("The pledge has changed since this tag was made", "#new-receipt")
        there_is_no_paper()
        expect("the old one is not printed", browser.run("return window.printed"), 1)
        command("Print a tag for the bag", "Show the tag")
        browser.says(f"Until {in_short(ago(-400))}", ".tag")
        browser.press("#new-receipt button", "Print the tag")
        browser.until("return window.printed === 2", "the new one is printed")
        no_faults()


def a_pledge_that_changed_since_its_paper_was_made_is_shown_as_it_is_now():
    """At once, and not only within the next minute: beside the word that it changed, its old figures mislead."""
    with a_pledge_at_the_counter() as (pages, receipt):
        the_book_is_read()
        browser.run(COUNT_PRINTS)
        command("Print the receipt again", "Print the receipt again")
        agree()
        browser.says("It was looked at just now: it is live.", "#commands")
        browser.rests()
        pages.session.broker("POST", "/books/7/pledges/1/extend", {"until": str(ago(-400))})
        browser.press("#new-receipt button", "Print the receipt")
        browser.says(in_words(ago(-400)), "#statement")
        browser.rests()
        browser.says("The pledge has changed since this paper was made", "#commands > .notice")
        command("Print a tag for the bag", "Show the tag")
        browser.says("Until ", ".tag")
        browser.rests()
        pages.session.broker("POST", "/books/7/pledges/1/extend", {"until": str(ago(-500))})
        browser.press("#new-receipt button", "Print the tag")
        browser.says(in_words(ago(-500)), "#statement")
        browser.rests()
        browser.says("The pledge has changed since this tag was made", "#new-receipt")
        command("Print the receipt again", "Print the receipt again")
        agree()
        browser.says("It was looked at just now: it is live.", "#commands")
        browser.rests()
        redeem_by(pages, receipt)
        browser.press("#new-receipt button", "Print the receipt")
        browser.says("Redeemed on", "#statement")
        browser.rests()
        browser.says("This receipt is not live: pledge 1 was redeemed", "#commands > .notice")
        expect("nothing is printed", browser.run("return window.printed"), 0)
        second, _ = take_a_ring(reference="A2")
        find("2")
        command("Print the receipt again", "Print the receipt again")
        agree()
        browser.says("It was looked at just now: it is live.", "#commands")
        browser.rests()
        redeem_by(pages, second)
        browser.press("#read-book")
        browser.says("Redeemed on", "#statement")
        browser.says("This receipt is not live: pledge 2 was redeemed with it on", "#commands > .notice")
        no_faults()


OUT_OF_DATE = "This is out of date: the pledge has changed since it was read at"


def a_form_that_was_begun_stays_where_its_pledge_changed():
    """The pledge above it is out of date, says so, and can be read again. Until then the form asks about the change
    when it is sent."""
    with a_pledge_at_the_counter() as (pages, _):
        the_book_is_read()
        browser.run(COUNT_PRINTS)
        typed = "return document.querySelector('.action[open] [name=amount]').value"

        def change_it(paper, show, print_it, owed, seq):
            command(paper, show)
            agree()
            browser.element("#new-receipt .paper")
            browser.rests()
            unfold("Repayment")
            browser.fill(".action[open] form", amount="5")
            browser.rests()
            pages.session.broker("POST", "/books/7/pledges/1/repay", {"pence": 1000, "seq": seq})
            pages.session.broker("POST", "/books/7/pledges/1/extend", {"until": str(ago(-400 - seq))})
            browser.press("#new-receipt button", print_it)
            browser.says(OUT_OF_DATE, "#statement")
            browser.says(f"{owed} owed today", "#statement")
            there_is_no_paper()
            expect("what was typed", browser.run(typed), "5")

        change_it("Print a tag for the bag", "Show the tag", "Print the tag", "£100.00", 1)
        expect("no tag is ready", browser.text("#commands > .notice"), "")
        browser.shoot("broker-out-of-date")
        with browser.without_a_line():
            browser.press("#statement button", "Read the pledge again")
            browser.says("The service can’t be reached just now.", "#statement", patience=20)
        browser.faults()
        browser.press("#statement button", "Read the pledge again")
        browser.says("£90.00 owed today", "#statement")
        expect("it is out of date no more", OUT_OF_DATE in browser.text("#statement"), False)
        expect("what was typed is there still", browser.run(typed), "5")
        change_it("Print the receipt again", "Print the receipt again", "Print the receipt", "£90.00", 2)
        browser.press("#read-book")
        browser.rests()
        browser.says(OUT_OF_DATE, "#statement")
        browser.press(".action[open] button", "Record the repayment")
        browser.says("Something came in between", "dialog")
        browser.press("dialog button", "Yes, record £5.00 as well")
        browser.says("£75.00 owed today", "#statement")
        expect("it is out of date no more", OUT_OF_DATE in browser.text("#statement"), False)
        no_faults()


# Another till declares the same receipt lost once this page's declaration was answered.
DECLARED_TWICE = """
const real = window.fetch;
window.fetch = async (path, how) => {
  const reply = await real(path, how);
  if (path.endsWith("/declare")) {
    window.fetch = real;
    await real(path, how);
  }
  return reply;
};"""


# Once a command was answered, nothing can be looked at any more.
THEN_NO_LINE = """
const [real, command] = [window.fetch, arguments[0]];
let answered = false;
window.fetch = async (path, how) => {
  if (answered) throw new TypeError("no line");
  const reply = await real(path, how);
  answered ||= how.method === "POST" && path.endsWith(command);
  return reply;
};"""


def what_was_done_is_told_where_it_can_no_longer_be_looked_at():
    with Pages() as pages:
        make_book(pages)
        pages.session.open_pledge(1)
        for action, title, button, says in (
            ("/repay", "Repayment", "Record the repayment", "It is recorded, but the pledge can’t be read just now."),
            (
                "/declare", "Replace a lost receipt", "Make a new receipt",
                "A new receipt was made, but could not be looked",
            ),
        ):
            open_book(pages)
            find("1")
            browser.says("owed today", "#statement")
            browser.run(THEN_NO_LINE, action)
            command(title, button, **({"amount": "10"} if action == "/repay" else {}))
            agree(1)
            browser.says(says, "#commands", patience=20)
        there_is_no_paper()
        open_book(pages)
        the_book_is_read()
        browser.run(THEN_NO_LINE, "/pledges")
        part("take")
        send_taking(article="Spoon", ref="B1", amount="5")
        browser.says("Pledge 2 has this reference. It could not be looked at just now", "#taking", patience=20)
        there_is_no_paper()


def two_equal_payments_are_two():
    with a_pledge_at_the_counter() as (pages, _):
        browser.says("£100.00 owed today", "#statement")
        pages.session.broker("POST", "/books/7/pledges/1/repay", {"pence": 1000, "seq": 1})
        command("Repayment", "Record the repayment", amount="10")
        for says in (
            "Something came in between", f"Repaid: £10.00, on {in_short(today())}.", "£90.00 is owed now.",
        ):
            browser.says(says, "dialog")
        expect(
            "the dialog has the name of its heading",
            browser.run(
                "const one = document.querySelector('dialog'); "
                "return document.getElementById(one.getAttribute('aria-labelledby')).textContent"
            ),
            "Something came in between",
        )
        browser.shoot("broker-between")
        browser.press("dialog button", "No, record nothing")
        browser.says("Nothing was recorded.", "#commands")
        browser.says("£90.00 owed today", "#statement")
        is_told_quietly(".action[open]")
        expect("one entry", len(entries(pages, 1)), 1)
        pages.session.broker("POST", "/books/7/pledges/1/repay", {"pence": 1000, "seq": 2})
        browser.press(".action[open] button", "Record the repayment")
        browser.press("dialog button", "Yes, record £10.00 as well")
        for says in ("Repaid: £10.00", "£70.00 is owed now."):
            browser.says(says, "#commands")
        expect("three entries", len(entries(pages, 1)), 3)
        no_faults()


def an_equal_payment_that_comes_during_the_question_is_another():
    """The service answers an equal entry of the same number as it answered the first: it would not be recorded."""
    with a_pledge_at_the_counter() as (pages, _):
        part("shop")
        browser.fill("#shop-form", ask="20")
        browser.press("#shop-form button", "Keep these")
        browser.says("Kept in this browser.", "#shop")
        find("1")
        browser.says("£100.00 owed today", "#statement")
        command("Repayment", "Record the repayment", amount="30")
        browser.says("Record £30.00 as received?", "dialog")
        pages.session.broker("POST", "/books/7/pledges/1/repay", {"pence": 3000, "seq": 1})
        browser.press("dialog button", "Record £30.00")
        browser.says("Something came in between", "dialog")
        browser.says(f"Repaid: £30.00, on {in_short(today())}.", "dialog")
        browser.press("dialog button", "Yes, record £30.00 as well")
        browser.says("£40.00 is owed now.", "#commands")
        expect("two entries", len(entries(pages, 1)), 2)
        command("Repayment", "Record the repayment", amount="30")
        browser.says("Record £30.00 as received?", "dialog")
        pages.session.broker("POST", "/books/7/pledges/1/repay", {"pence": 3000, "seq": 3})
        browser.press("dialog button", "Record £30.00")
        browser.says("That is more than is owed. Owed today: £10.00.", "#commands")
        expect("three entries", len(entries(pages, 1)), 3)
        no_faults()


def a_payment_that_was_made_during_the_question_is_named_in_the_refusal():
    """The pawnor pays on a telephone meanwhile: that nothing more is owed does not say why."""
    with a_pledge_at_the_counter() as (pages, receipt):
        browser.says("£100.00 owed today", "#statement")
        command("Repayment", "Record the repayment", amount="100")
        browser.says("Record £100.00 as received?", "dialog")
        paid = pages.session.bearer(receipt, "POST", "/books/7/held/repay", {"pence": 10000, "seq": 1})
        expect("the pawnor's payment", paid[0], 200)
        browser.press("dialog button", "Record £100.00")
        browser.says("That is more than is owed. Owed today: £0.00.", "#commands")
        happened = f"Since this pledge was shown here, this happened: Repaid: £100.00, on {in_short(today())}."
        browser.says(happened, "#commands")
        expect("one entry", len(entries(pages, 1)), 1)
        no_faults()


def redemption_by_the_paper():
    with an_open_book() as pages:
        receipt, link = take_a_ring()
        find(link.upper().replace("HTTP", "http").replace("#BOOK", "#book").replace("RECEIPT=", "receipt="))
        browser.says("This receipt is live. £100.00 is owed today.", "#commands")
        expect("the address names the pledge and no receipt", browser.run("return location.hash"), "#pledge=1")
        browser.fill(".action[open] form", amount="99.99")
        browser.press(".action[open] button", "Redeem")
        browser.says("£100.00 is owed today, and redeeming requires all of it.", "#commands")
        browser.shoot("broker-redeem")
        command("Repayment", "Record the repayment", amount="100")
        agree()
        browser.says("£0.00 is owed now.", "#commands")
        expect("the pledge is open", "Status inside" in pages.session.broker("GET", "/books/7/pledges/1")[1], True)
        part("today")
        find(receipt.upper().replace("-", "–"))
        browser.says("This receipt is live. £0.00 is owed today.", "#commands")
        browser.fill(".action[open] form", amount="0")
        browser.press(".action[open] button", "Redeem")
        browser.says("It can’t be taken back.", "dialog")
        browser.press("dialog button", "Redeem for £0.00")
        browser.says(f"Redeemed on {in_words(today())}: £0.00 was paid. Hand out the article", "#commands")
        expect("it is redeemed", "Status redeemed" in pages.session.broker("GET", "/books/7/pledges/1")[1], True)
        find(receipt)
        browser.says("This receipt is not live: pledge 1 was redeemed with it", "#commands")
        part("all")
        browser.fill("#searching", text=receipt)
        browser.says("1 of 1 pledges", "#all")
        part("due")
        browser.until("return document.activeElement.matches('#due h1')", "the focus in no field")
        browser.keys(link + ENTER)
        browser.until("return location.hash === '#pledge=1'", "the pledge of a link that was scanned anywhere")
        browser.says("This receipt is not live: pledge 1 was redeemed with it", "#commands")
        part("take")
        browser.fill("#taking", article="x", ref=link, amount="1")
        browser.press("#taking button", "Take the pledge")
        browser.says("This receipt is not live: pledge 1 was redeemed with it", "#commands")
        no_faults()


def a_redemption_that_the_browser_sends_twice_is_told():
    """A browser that uses a connection again, and gets no byte of a reply by it, sends a POST again by itself."""
    with Pages() as pages, Cut(pages.port, "/redeem") as line:
        make_book(pages)
        receipt = pages.session.open_pledge(1)
        pages.address = line.address
        open_book(pages)
        find(receipt)
        browser.says("This receipt is live. £100.00 is owed today.", "#commands")
        browser.fill(".action[open] form", amount="100")
        browser.press(".action[open] button", "Redeem")
        browser.press("dialog button", "Redeem for £100.00")
        browser.says("Redeemed on", "#statement")
        browser.says("The pledge is redeemed for £100.00", "#commands")
        browser.says("hand out the article", "#commands")
        expect("how often the browser sent it", line.begun, 2)


def a_redemption_by_another_during_the_question_is_told():
    """The pawnor redeems on a telephone meanwhile: this press did not do it."""
    with an_open_book() as pages:
        receipt, _ = take_a_ring()
        find(receipt)
        browser.says("This receipt is live. £100.00 is owed today.", "#commands")
        browser.fill(".action[open] form", amount="100")
        browser.press(".action[open] button", "Redeem")
        browser.says("Redeem pledge 1?", "dialog")
        redeem_by(pages, receipt)
        browser.press("dialog button", "Redeem for £100.00")
        browser.says("This receipt is not live: pledge 1 was redeemed", "#commands")
        browser.says("That was not by this press, which did nothing. Don’t hand out the article", "#commands")
        expect("not by this press", "most likely by this press" in browser.text("#commands"), False)
        browser.says(f"Redeemed on {in_words(today())}", "#statement")
        no_faults()


def nothing_is_owed_now_on_a_pledge_that_is_closed():
    """Another till recorded a payment while the form of the redemption, or of the sale, was filled in."""
    with Pages() as pages:
        make_book(pages, terms=False)
        fill_book(pages, book_text(
            [("Ring", "A1", 9000, ago(30), "", "no"), ("Old clock", "A2", 9000, ago(220), "", "no")], rates=(0, 0, 0),
        ))
        open_book(pages)
        the_book_is_read()
        for number, title, fields, pressed, yes, done in (
            (
                1, "Redeem by the paper", {"receipt": f"1-{secret_of(1)}", "amount": "40"}, "Redeem",
                "Redeem for £40.00", f"Redeemed on {in_words(today())}: £40.00 was paid.",
            ),
            (2, "Sale", {"amount": "120.25"}, "Record the sale", "Sold for £120.25", "Sold for £120.25: "),
        ):
            find(str(number))
            browser.says("£90.00 owed today", "#statement")
            unfold(title)
            browser.fill(".action[open] form", **fields)
            paid = pages.session.broker("POST", f"/books/7/pledges/{number}/repay", {"pence": 5000, "seq": 1})
            expect("another till's payment", paid[0], 200)
            browser.press(".action[open] button", pressed)
            browser.press("dialog button", yes)
            browser.says(done, "#commands > .notice")
            browser.rests()
            said = browser.text("#commands > .notice")
            expect(f"{title}: that something is owed now", "owed now" in said, False)
            if number == 1:
                browser.says(
                    f"Since this pledge was shown here, this happened: Repaid: £50.00, on {in_short(today())}.",
                    "#commands > .notice",
                )
        no_faults()


def a_redemption_by_another_before_the_press_is_shown():
    """The pawnor redeems on a telephone, and then the clerk presses: the pledge beside the reason is no longer open."""
    with an_open_book() as pages:
        receipt, _ = take_a_ring()
        find(receipt)
        browser.says("This receipt is live. £100.00 is owed today.", "#commands")
        browser.fill(".action[open] form", amount="100")
        redeem_by(pages, receipt)
        browser.press(".action[open] button", "Redeem")
        browser.says("This receipt is not live: pledge 1 was redeemed", "#commands")
        browser.says("That was not by this press, which did nothing. Don’t hand out the article", "#commands")
        browser.says(f"Redeemed on {in_words(today())}", "#statement")
        expect("nothing is to be received", "is to be received" in browser.text("#commands"), False)
        no_faults()


def a_sale_is_not_recorded_where_the_pledge_changed_during_the_question():
    """The question names what was owed, and a sale can't be taken back. The other till may have sold it already, or the
    pawnor may have paid, so that the article is not sold any more."""
    with Pages() as pages:
        make_book(pages, terms=False)
        fill_book(pages, book_text([("Old clock", "O1", 9000, ago(220), "", "no")], rates=(0, 0, 0)))
        open_book(pages)
        the_book_is_read()
        find("1")
        browser.says("£90.00 owed today", "#statement")
        receipt = f"1-{secret_of(1)}"
        for change, says in (
            (
                lambda: pages.session.broker("POST", "/books/7/pledges/1/repay", {"pence": 5000, "seq": 1}),
                "The sale was not recorded. £40.00 is owed now.",
            ),
            (lambda: pages.session.broker("POST", "/books/7/pledges/1/hold"), "It is on hold."),
            (
                lambda: pages.session.bearer(receipt, "POST", "/books/7/held/ask", {"day": str(ago(-3)), "window": 3}),
                f"The pawnor is to come for it: {in_words(ago(-3))}, 10:30 to 11:00: asked for",
            ),
        ):
            command("Sale", "Record the sale", amount="120.25")
            browser.element("dialog")
            expect("a change", change()[0], 200)
            browser.press("dialog button", "Sold for £120.25")
            browser.says("Since this pledge was shown here, it has changed.", ".action[open] .notice")
            browser.says(says, ".action[open] .notice")
            browser.rests()
            typed = "return document.querySelector('.action[open] [name=amount]').value"
            expect("what was typed stays", browser.run(typed), "120.25")
        browser.says("£40.00 owed today", "#statement")
        command("Sale", "Record the sale", amount="120.25")
        browser.says("£40.00 is owed today. The surplus is £80.25: it is the pawnor’s.", "dialog")
        sold = pages.session.broker("POST", "/books/7/pledges/1/sell", {"net": 12025})
        expect("another till sells it", sold[0], 200)
        browser.press("dialog button", "Sold for £120.25")
        browser.says("The pledge is redeemed or sold already.", "#commands")
        browser.says("Sold on", "#statement")
        expect("not by this press", "the sale is recorded once" in browser.text("#commands"), False)
        no_faults()


def the_question_of_a_sale_names_what_came_in_between():
    """The pawnor pays while the form is filled in: the clerk reads it before the sale, which can't be taken back."""
    with Pages() as pages:
        make_book(pages, terms=False)
        fill_book(pages, book_text([("Old clock", "O1", 9000, ago(220), "", "no")], rates=(0, 0, 0)))
        open_book(pages)
        the_book_is_read()
        find("1")
        browser.says("£90.00 owed today", "#statement")
        since = "Since this pledge was shown here, this happened:"

        def pay(seq, pence):
            """The pawnor's payment, while the form is open."""
            body = {"pence": pence, "seq": seq}
            paid = pages.session.bearer(f"1-{secret_of(1)}", "POST", "/books/7/held/repay", body)
            expect("the pawnor's payment", paid[0], 200)

        unfold("Sale")
        browser.fill(".action[open] form", amount="120.25")
        pay(1, 5000)
        expect("another till's hold", pages.session.broker("POST", "/books/7/pledges/1/hold")[0], 200)
        browser.press(".action[open] button", "Record the sale")
        browser.says("£40.00 is owed today. The surplus is £80.25: it is the pawnor’s.", "dialog")
        for line in since, f"Repaid: £50.00, on {in_short(today())}.", "The pledge was put on hold.":
            browser.says(line, "dialog")
        pay(2, 700)
        browser.press("dialog button", "Not now")
        news = f"{since} Repaid: £7.00, on {in_short(today())}. £33.00 is owed now."
        browser.says(f"Nothing was done. {news}", "#commands")
        expect("what the question named is not said again", "£50.00" in browser.text("#commands .action[open]"), False)
        browser.rests()
        browser.press(".action[open] button", "Record the sale")
        browser.says("£33.00 is owed today.", "dialog")
        expect("what is shown is no news", since in browser.text("dialog"), False)
        browser.press("dialog button", "Not now")
        browser.says("Nothing was done.", "#commands")
        browser.rests()
        pay(3, 300)
        browser.press(".action[open] button", "Record the sale")
        browser.says(f"Repaid: £3.00, on {in_short(today())}.", "dialog")
        browser.press("dialog button", "Sold for £120.25")
        browser.says("Sold for £120.25: ", "#commands > .notice")
        expect("what the question named is not said again", since in browser.text("#commands > .notice"), False)
        no_faults()


def a_sale_that_the_browser_sends_twice_is_told():
    with Pages() as pages, Cut(pages.port, "/sell") as line:
        make_book(pages, terms=False)
        fill_book(pages, book_text([("Old clock", "O1", 9000, ago(220), "", "no")], rates=(0, 0, 0)))
        pages.address = line.address
        open_book(pages)
        find("1")
        browser.says("The period ended", "#statement")
        command("Sale", "Record the sale", amount="120.25")
        browser.press("dialog button.grave")
        browser.says("Sold on", "#statement")
        browser.says("Sold for £120.25: £30.25 more than was owed, which is the pawnor’s.", "#commands")
        browser.says("the sale is recorded once", "#commands")
        expect("how often the browser sent it", line.begun, 2)


def of_a_declaration_that_the_browser_sends_twice_the_live_receipt_is_printed():
    with Pages() as pages, Cut(pages.port, "/declare") as line:
        make_book(pages)
        pages.session.open_pledge(1)
        pages.address = line.address
        open_book(pages)
        find("1")
        command("Replace a lost receipt", "Make a new receipt")
        browser.press("dialog button", "Make a new receipt")
        receipt = browser.until("return document.querySelector('.paper .secret')?.textContent.trim()", "the new receipt")
        expect("its receipt is live", pages.session.bearer(receipt, "GET", "/books/7/held")[0], 200)
        expect("how often the browser sent it", (line.begun, len(receipts_made(pages, 1))), (2, 3))
        no_faults()


def a_receipt_is_printed_again():
    with an_open_book() as pages:
        receipt, _ = take_a_ring(five="yes")
        browser.ask("POST", "/refresh", {})
        find("A1")
        browser.says("£100.00 owed today", "#statement")
        for title, button, says in (
            ("Put on hold", "Hold", "The pledge is on hold"), ("Release the hold", "Release", "The hold is released."),
        ):
            command("Print the receipt again", "Print the receipt again")
            browser.says("anyone who has either can redeem it", "dialog")
            browser.press("dialog button", "Print it again")
            browser.says("it is live. The pledge has had one receipt.", "#commands")
            expect("the same receipt", browser.text(".paper .secret").strip(), receipt)
            command(title, button)
            browser.says(says, "#commands")
        expect("no new receipt was made", len(receipts_made(pages, 1)), 1)
        no_faults()


def a_receipt_of_a_pledge_that_is_over_is_printed_as_such():
    """Nobody can redeem a pledge that is sold or has passed, and the question does not say so."""
    with Pages() as pages:
        make_book(pages, terms=False)
        fill_book(pages, book_text([
            ("Clock", "O1", 9000, ago(220), "", "no"), ("Lamp", "O2", 7500, ago(220), "", "no"),
        ]))
        pages.session.broker("POST", "/books/7/pledges/1/sell", {"net": 20000})
        open_book(pages)
        for number in (1, 2):
            find(str(number))
            browser.says("This pledge is over", "#commands")
            command("Print the receipt again", "Print the receipt again")
            browser.says("Both papers show what became of the pledge. It can’t be redeemed any more.", "dialog")
            expect("nobody can redeem it", "can redeem it" in browser.text("dialog"), False)
            browser.press("dialog button", "Print it again")
            browser.says("The pledge can’t be redeemed any more. The link above shows what became of it.", ".paper")
            expect("it is not called live", "is live" in browser.text("#commands"), False)
        no_faults()


def who_waits_for_another_day():
    with Pages() as pages:
        make_book(pages)
        receipts = [pages.session.open_pledge(number) for number in (1, 2, 3)]
        for receipt, days, window in zip(receipts, (9, 3, 3), (1, 7, 2)):
            pages.session.bearer(receipt, "POST", "/books/7/held/ask", {"day": str(ago(-days)), "window": window})
        open_book(pages)
        browser.says("12:30 to 13:00", "#sheet")
        browser.says(f"{in_short(ago(-9))}, in 9 days, 09:30 to 10:00", "#sheet")
        lines = browser.run("return [...document.querySelectorAll('#sheet .card')][1].innerText")
        order = [lines.index(f"Pledge {number}") for number in (3, 2, 1)]
        expect("by day and time", order == sorted(order), True)
        browser.says(f"{in_short(ago(-9))}, in 9 days, 09:30 to 10:00", "#sheet")
        expect("and no visit is overlooked", "Nobody waits" in browser.text("#sheet"), False)
        browser.shoot("broker-waiting")


def what_is_due():
    """In grace, within 7, 14 and 30 days whatever the month, to be sold, and passed; and the first day of a sale."""
    long_ago = ago(400)
    pledges = [
        ("Clock", "G1", 9000, long_ago, ago(2), "yes"), ("Small clock", "G2", 5000, long_ago, ago(1), "yes"),
        ("Ring", "G3", 9000, long_ago, ago(-7), "no"), ("Brooch", "G4", 9000, long_ago, ago(-8), "yes"),
        ("Lamp", "G5", 9000, long_ago, ago(-30), "no"), ("Violin", "G6", 9000, long_ago, ago(-31), "no"),
        ("Vase", "G7", 9000, long_ago, "", "no"), ("Watch", "G8", 5000, long_ago, "", "no"),
        ("Coat", "G9", 5000, ago(10), "", "no"),
    ]
    with Pages() as pages:
        make_book(pages, terms=False)
        fill_book(pages, book_text(pledges))
        open_book(pages)
        the_book_is_read()
        part("due")
        browser.says("Small clock", "#due-lists")
        lists = browser.run(
            "return [...document.querySelectorAll('#due-lists .card')].map((card) => "
            "[card.querySelector('h2').firstChild.textContent, ...[...card.querySelectorAll('tbody tr')].map((row) "
            "=> row.innerText.replace(/\\s+/g, ' '))])"
        )
        expect(
            "the sections", [(one[0], len(one) - 1) for one in lists],
            [
                ("In their days of grace", 2), ("Ends within 7 days", 1), ("Ends in 8 to 14 days", 1),
                ("Ends in 15 to 30 days", 1), ("Can be sold now", 1), ("Passed to the shop", 1),
            ],
        )
        expect("in grace", lists[0][1], f"1 Clock G1 £190.00 can be sold from {in_short(ago(-4))}")
        expect("with the day of the other", f"can be sold from {in_short(ago(-5))}" in lists[0][2], True)
        find("G4")
        unfold("Sale")
        browser.says(
            f"It can be sold from {in_words(ago(-14))} on, if it is not redeemed or extended before.", "#commands",
        )
        find("G1")
        unfold("Sale")
        browser.says(f"It can be sold from {in_words(ago(-4))} on, if it is not redeemed before.", "#commands")
        find("G9")
        unfold("Sale")
        browser.says("if it is not redeemed or extended before, the article passes to the shop on", "#commands")
        no_faults()


def a_visit_that_was_changed_is_not_confirmed_unseen():
    with Pages() as pages:
        make_book(pages)
        receipt = pages.session.open_pledge(1)
        first, second = ago(-3), ago(-4)
        pages.session.bearer(receipt, "POST", "/books/7/held/ask", {"day": str(first), "window": 3})
        open_book(pages)
        find("1")
        browser.says(f"{in_words(first)}, 10:30 to 11:00: asked for", "#statement")
        pages.session.bearer(receipt, "POST", "/books/7/held/ask", {"day": str(second), "window": 4})
        command("Visit", "Confirm")
        browser.says("The visit was changed since it was shown, so nothing was decided.", "#commands")
        browser.says(f"{in_words(second)}, 11:00 to 11:30: asked for", "#statement")
        expect(
            "it is as asked", f"Booking {second} 4 asked" in pages.session.broker("GET", "/books/7/pledges/1")[1],
            True,
        )
        browser.press(".action[open] button", "Confirm")
        browser.says(f"The visit on {in_words(second)}, 11:00 to 11:30 is confirmed.", "#commands")
        no_faults()


def a_visit_that_is_changed_during_the_question_is_not_refused_unseen():
    """A visit that was refused can't be confirmed after that."""
    with Pages() as pages:
        make_book(pages)
        receipt = pages.session.open_pledge(1)
        pages.session.bearer(receipt, "POST", "/books/7/held/ask", {"day": str(ago(-3)), "window": 3})
        open_book(pages)
        find("1")
        browser.says(f"{in_words(ago(-3))}, 10:30 to 11:00: asked for", "#statement")
        command("Visit", "Refuse")
        browser.says("Refuse this visit?", "dialog")
        pages.session.bearer(receipt, "POST", "/books/7/held/ask", {"day": str(ago(-4)), "window": 4})
        browser.press("dialog button", "Refuse the visit")
        browser.says("The visit was changed since it was shown, so nothing was decided.", "#commands")
        _, text = pages.session.broker("GET", "/books/7/pledges/1")
        expect("it is as asked", f"Booking {ago(-4)} 4 asked" in text, True)
        browser.press(".action[open] button", "Refuse")
        browser.press("dialog button", "Refuse the visit")
        browser.says(f"The visit on {in_words(ago(-4))}, 11:00 to 11:30 is refused.", "#commands")
        pages.session.bearer(receipt, "POST", "/books/7/held/ask", {"day": str(ago(-3)), "window": 3})
        find("1")
        browser.says(f"{in_words(ago(-3))}, 10:30 to 11:00: asked for", "#statement")
        command("Visit", "Refuse")
        browser.says("Refuse this visit?", "dialog")
        pages.session.bearer(receipt, "POST", "/books/7/held/cancel")
        browser.press("dialog button", "Refuse the visit")
        browser.says(f"Now it is: {in_words(ago(-3))}, 10:30 to 11:00: cancelled.", "#commands")
        expect("nothing is left to decide", "Decide on this one" in browser.text("#commands"), False)
        no_faults()


def a_visit_that_the_shop_confirmed_is_named_where_the_article_is_sold():
    """Else an article is sold the day before its pawnor comes for it. The rules allow the sale, so the page says it."""
    with Pages() as pages:
        make_book(pages, terms=False)
        long_ago = ago(220)
        pledges = [("Gold ring", "G1", 9000, long_ago, "", "no"), ("Old clock", "G2", 9000, long_ago, "", "no")]
        fill_book(pages, book_text(pledges))
        coming = {"day": str(ago(-1)), "window": 3}
        for number in (1, 2):
            pages.session.bearer(f"{number}-{secret_of(number)}", "POST", "/books/7/held/ask", coming)
        expect("confirmed", pages.session.broker("POST", "/books/7/pledges/1/decide", {"yes": True})[0], 200)
        open_book(pages)
        the_book_is_read()
        part("due")
        browser.says("Old clock", "#due-lists")
        rows = "return [...document.querySelectorAll('#due-lists tbody tr')].map((one) => one.innerText)"
        first, second = browser.run(rows)
        browser.shoot("broker-due-visits")
        expect("the confirmed one", f"visit confirmed for {in_short(ago(-1))}" in first, True)
        expect("the one that is asked for", f"visit asked for {in_short(ago(-1))}" in second, True)
        for number, state in ((1, "confirmed"), (2, "asked for, not confirmed yet")):
            find(str(number))
            browser.says(f"Pledge {number}", "#statement")
            command("Sale", "Record the sale", amount="90")
            browser.says(f"The pawnor is to come for it: {in_words(ago(-1))}, 10:30 to 11:00: {state}.", "dialog")
            browser.press("dialog button", "Not now")
            browser.says("Nothing was done.", "#commands")
        no_faults()


def a_visit_is_not_confirmed_unseen_where_nothing_can_be_fetched():
    """The article may have been sold on its day, or it is on hold."""
    with Pages() as pages:
        make_book(pages)
        receipt = pages.session.open_pledge(1)
        end = six_months_after(today())
        late = end + datetime.timedelta(days=3)
        may_be_sold = f"That is after the period’s end, {in_words(end)}: the article may have been sold by then."
        held = "The pledge is on hold: nothing can be fetched until you release it."
        pages.session.bearer(receipt, "POST", "/books/7/held/ask", {"day": str(end), "window": 3})
        open_book(pages)
        the_book_is_read()
        find("1")
        browser.says("Pledge 1", "#statement")
        said = browser.run("return document.querySelector('#commands').textContent")
        expect("not said of the last day", may_be_sold in said or held in said, False)
        pages.session.bearer(receipt, "POST", "/books/7/held/ask", {"day": str(late), "window": 3})
        pages.session.broker("POST", "/books/7/pledges/1/hold")
        find("1")
        browser.says(f"{in_words(late)}, 10:30 to 11:00: asked for", "#statement")
        browser.rests()
        unfold("Visit")
        browser.says(may_be_sold, ".action[open]")
        browser.says(held, ".action[open]")
        no_faults()


EXPORTS = "return performance.getEntriesByType('resource').filter(({ name }) => name.endsWith('/export')).length"

def the_book_is_read_anew():
    """Where another changed it, and after ten minutes; and by the button."""
    with Pages() as pages:
        make_book(pages)
        pages.session.open_pledge(1)
        open_book(pages)
        the_book_is_read()
        pages.session.open_pledge(2)
        pages.session.broker("POST", "/books/7/pledges/1/repay", {"pence": 1000, "seq": 1})
        find("1")
        browser.says("£90.00 owed today", "#statement")
        expect("not at once", browser.run(EXPORTS), 1)
        the_clock_goes_on(31)
        browser.until(EXPORTS.replace("length", "length === 2"), "the book after another's change")
        part("all")
        browser.says("2 of 2 pledges", "#all")
        pages.session.open_pledge(3)
        the_clock_goes_on(500)
        browser.says("The book was read 7 minutes ago", "#book-line")
        expect("not before ten minutes", browser.run(EXPORTS), 2)
        the_clock_goes_on(700)
        browser.says("3 of 3 pledges", "#all")
        pages.session.open_pledge(4)
        browser.press("#read-book")
        browser.says("4 of 4 pledges", "#all")
        expect("four times in all", browser.run(EXPORTS), 4)
        no_faults()


main(
    (),
    (
        a_dead_receipt_is_not_printed_as_new, a_receipt_that_dies_while_it_is_taken_is_not_printed,
        what_was_done_is_told_where_it_can_no_longer_be_looked_at, a_receipt_has_the_terms_of_its_pledge,
        a_new_receipt_that_another_replaced_is_not_printed, two_equal_payments_are_two,
        a_receipt_that_was_redeemed_is_not_left_to_be_printed, a_receipt_with_the_old_end_is_not_left_to_be_printed,
        a_receipt_that_another_till_replaced_is_not_left_to_be_printed, a_dead_receipt_is_not_printed_by_its_button,
        a_paper_with_an_end_that_another_till_moved_is_not_printed,
        a_receipt_that_died_while_the_tag_was_shown_is_not_shown_again,
        a_tag_with_an_end_that_another_till_moved_is_not_printed,
        a_pledge_that_changed_since_its_paper_was_made_is_shown_as_it_is_now,
        a_form_that_was_begun_stays_where_its_pledge_changed,
        a_declaration_that_was_not_sent_does_not_have_the_lost_receipt_printed,
        a_paper_is_made_of_the_pledge_as_it_is_now, no_tag_is_made_of_a_pledge_that_is_over,
        a_receipt_that_another_till_replaced_is_not_called_live_any_more,
        an_equal_payment_that_comes_during_the_question_is_another,
        a_payment_that_was_made_during_the_question_is_named_in_the_refusal, redemption_by_the_paper,
        a_redemption_that_the_browser_sends_twice_is_told, a_sale_that_the_browser_sends_twice_is_told,
        a_sale_is_not_recorded_where_the_pledge_changed_during_the_question,
        the_question_of_a_sale_names_what_came_in_between,
        a_visit_that_is_changed_during_the_question_is_not_refused_unseen,
        a_redemption_by_another_during_the_question_is_told, a_redemption_by_another_before_the_press_is_shown,
        nothing_is_owed_now_on_a_pledge_that_is_closed,
        of_a_declaration_that_the_browser_sends_twice_the_live_receipt_is_printed,
        a_receipt_of_a_pledge_that_is_over_is_printed_as_such,
        a_receipt_is_printed_again, who_waits_for_another_day, what_is_due, the_book_is_read_anew,
        a_visit_that_was_changed_is_not_confirmed_unseen,
        a_visit_that_the_shop_confirmed_is_named_where_the_article_is_sold,
        a_visit_is_not_confirmed_unseen_where_nothing_can_be_fetched,
    ),
)
