"""What the pawnor's page says of receipts that open nothing, of cut links and of several pledges, and what will be
owed; in a real browser, in front of the program."""
import datetime
import os
import re
from urllib.parse import quote

from tests.library.checks import expect
from tests.library.dates import six_months_after, today
from tests.library.keys import BROKER
from tests.library.pages.browser import Pages
from tests.library.pages.steps import (
    WRONG_SECRET, a_pledge_at_the_counter, a_pledge_by_its_receipt, ago, an_open_book, book_text, browser, command,
    fill_book, find, in_short, in_words, main, make_book, no_faults, open_book, part, secret_of, show_receipt,
    take_a_ring, the_book_is_read, unfold,
)


def a_receipt_that_opens_nothing_is_not_called_used():
    """A wrong letter and a wrong book are named first; only a receipt that was seen before is replaced or used."""
    with a_pledge_by_its_receipt() as (pages, receipt):
        browser.says("Gold ring", "#cards")
        wrong = receipt[:-1] + ("0" if receipt[-1] != "0" else "1")
        for link in (f"book=7&receipt={wrong}", f"book=8&receipt={receipt}"):
            browser.forget()
            browser.go(f"{pages.address}/pawn/#{link}")
            browser.says("This receipt opens no pledge", "#cards")
            browser.says("may be wrong: compare both with the paper", "#cards")
            expect("not called used", "replaced or used" in browser.text("#cards"), False)
        browser.shoot("pawn-wrong")
        show_receipt(pages, receipt)
        browser.says("Gold ring", "#cards")
        pages.session.broker("POST", "/books/7/pledges/1/declare", {"paper": "sworn"})
        browser.press("#look-again")
        browser.says("This receipt was replaced or used", "#cards")
        no_faults()


def a_receipt_that_the_pledge_never_had_may_be_of_another_book():
    """At the counter: one letter wrong, or the receipt of another book."""
    with a_pledge_at_the_counter() as (pages, receipt):
        the_book_is_read()
        for wrong in (receipt[:-1] + ("0" if receipt[-1] != "0" else "1"), f"1-{WRONG_SECRET}"):
            find(wrong)
            browser.says("This receipt is not live: pledge 1 never had it", "#commands")
            browser.says("Compare it and the number of its book with the paper", "#commands")
        no_faults()


def a_cut_link_is_told():
    """With the part that is missing; the form has the other part."""
    typed = "return [...document.querySelectorAll('#find-book, #find-receipts')].map(({ value }) => value)"
    with Pages() as pages:
        make_book(pages)
        receipt = pages.session.open_pledge(1)
        digits = len(receipt[2:20].replace("-", ""))
        for link, says, has in (
            (f"book=7&receipt={receipt[:20]}", f"the receipt is not whole. There are {digits} digits", ["", "7"]),
            ("book=7", "the receipt is missing.", ["", "7"]),
            (f"receipt={receipt}", "the number of the shop’s book is missing.", [receipt, ""]),
            ("shop=High", "the number of the shop’s book is missing, and the receipt is missing.", ["", ""]),
        ):
            browser.forget()
            browser.go(f"{pages.address}/pawn/#{link}")
            browser.says(f"That link is not whole, so it opens nothing: {says}", "#find")
            expect("what the form has", browser.run(typed), has)
            browser.go(f"{pages.address}/pawn/")
            browser.fill("#find", receipts=f"{pages.address}/pawn/#{link}")
            browser.press("#find button")
            if link != "shop=High":
                browser.says(f"That link is not whole, so it opens nothing: {says}", "#find")
        browser.shoot("pawn-cut")
        browser.go(f"{pages.address}/pawn/")
        expect("an empty form has no such word", "not whole" in browser.text("#find"), False)


def a_link_that_is_cut_in_its_terms_says_no_other_terms():
    """The grace follows the terms in each link, so terms without it may lack their last digits."""
    with Pages() as pages:
        make_book(pages)
        receipt = pages.session.open_pledge(1)
        browser.forget()
        browser.go(f"{pages.address}/pawn/#book=7&receipt={receipt}&terms=2667.1000000.50")
        browser.says("Gold ring", "#cards")
        expect("no terms", "as the receipt’s link says" in browser.text("#cards"), False)
        no_faults()


def a_link_out_of_a_mail_is_read_as_it_was_meant():
    """A mail program has escaped it, or has made a part of the sentence around it a part of the link."""
    with an_open_book() as pages:
        receipt, link = take_a_ring()
        fragment = link[link.index("#"):]
        escaped = fragment.replace("&", "&amp;")
        short = f"#receipt={receipt}&book=7"
        graced = f"#book=7&receipt={receipt}&terms=2667.0.0&grace=0"
        for meant in (
            escaped, escaped.replace("&amp;", "&amp;amp;"), fragment + ")", fragment + "%20",
            short + ".", short + ").", short + "]",
            graced + ".", graced + ")", graced + "%20", escaped + ").",
            "#" + quote(fragment[1:], safe=""), fragment.replace("=", "%3D"), fragment.replace("&", "%26"),
        ):
            browser.forget()
            browser.go(f"{pages.address}/pawn/{meant}")
            browser.says("Gold ring", "#cards")
            if "terms" in meant:
                shown = browser.text("#cards")
                expect("the terms", "£8.00 in 30 days on £100" in shown, True)
                expect("the days of grace", re.findall(r"Days of grace\s*(None|Five)", shown), ["None"])
        typed = f"(see {pages.address}/pawn/{escaped})."
        checked = f"https://eur01.safelinks.example/?url={quote(link, safe='')}&data=05%7C02&sdata=a%2Bb&reserved=0"
        wrapped = fragment.replace(receipt, receipt[:16] + "\n" + receipt[16:])
        for text in (
            typed, f"{pages.address}/pawn/{quote(fragment, safe='')}",
            f"Your pledge: {pages.address}/pawn/{wrapped}\nYours, the shop", f"{receipt[:20]}\n{receipt[20:]}", checked,
        ):
            browser.forget()
            browser.go(f"{pages.address}/pawn/")
            browser.fill("#find", receipts=text, book="7")
            browser.press("#find button")
            browser.says("Gold ring", "#cards")
        open_book(pages)
        for wanted in (typed, checked):
            find(wanted)
            browser.says("This receipt is live.", "#commands")
        no_faults()


def a_link_whose_hash_sign_was_changed_shows_its_pledge():
    """A program put ? or %23 in its place, so the receipt was sent to the proxy: the address loses it at once, and the
    logs never have it."""
    with an_open_book() as pages:
        receipt, link = take_a_ring()
        fragment = link[link.index("#") + 1:]
        escaped = quote(fragment, safe="")
        links = [
            f"{pages.address}/pawn/{changed}"
            for changed in (
                f"?{fragment}", f"%23{fragment}", f"?{escaped}", f"%23{escaped}", f"?mail=1&{fragment}",
                f"?{fragment.replace('&', '&amp;')}", f"index.html?{fragment}",
            )
        ]
        for changed in links:
            browser.forget()
            browser.ask("POST", "/url", {"url": changed})
            browser.says("Gold ring", "#cards")
            browser.says("£8.00 in 30 days on £100", "#cards")
            expect("the address", browser.run("return location.href"), f"{pages.address}/pawn/")
        browser.forget()
        browser.ask("POST", "/url", {"url": f"{pages.address}/pawn/?book=7&receipt={receipt[:20]}"})
        browser.says("That link is not whole, so it opens nothing: the receipt is not whole.", "#find")
        expect("the address", browser.run("return location.href"), f"{pages.address}/pawn/")
        for changed in links:
            browser.forget()
            browser.go(f"{pages.address}/pawn/")
            browser.fill("#find", receipts=changed)
            browser.press("#find button")
            browser.says("Gold ring", "#cards")
            browser.says("£8.00 in 30 days on £100", "#cards")
        logs = "".join(read_room(pages, name) for name in ("access.log", "error.log"))
        expect("the log has the page", '"target":"/pawn/"' in logs, True)
        expect("the logs have the receipt", receipt[2:10] in logs, False)
        no_faults()


def read_room(pages, name):
    """What nginx wrote in its folder."""
    with open(os.path.join(pages.room, "room", name)) as it:
        return it.read()


def is_found(how):
    """The pledge is shown anew, and its receipt is called live."""
    browser.run("document.querySelector('#commands').replaceChildren()")
    how()
    browser.says("This receipt is live.", "#commands")


def a_link_in_any_spelling_is_found_at_the_counter():
    """By one function with the pawnor's page: where pledges are found, listed, taken and redeemed, and by the scanner."""
    with an_open_book() as pages:
        receipt, link = take_a_ring()
        the_book_is_read()
        front, fragment = link.split("#")
        for typed in (
            front + quote("#" + fragment, safe=""), quote(link, safe=""), f"{front}?{fragment}", f"{front}%23{fragment}",
            link.replace("&", "&amp;"), link.replace("=", "%3D"),
        ):
            is_found(lambda: find(typed))
            part("all")
            browser.fill("#searching", text=typed)
            browser.says("1 of 1 pledges", "#search-count")
            browser.fill("#searching", text="")
            part("take")
            browser.fill("#taking", article="Ring", ref=typed, amount="5")
            is_found(lambda: browser.press("#taking button", "Take the pledge"))
            browser.rests()
            browser.fill(".action[open] form", receipt=typed, amount="99")
            browser.press(".action[open] button", "Redeem")
            browser.says("redeeming requires all of it", "#commands")
            browser.rests()
            part("today")
            browser.rests()
            browser.run("document.activeElement.blur()")
            is_found(lambda: browser.keys(typed + "\ue007"))
            part("take")
            browser.run("document.querySelector('#taking').reset()")
        no_faults()


def only_the_newest_receipt_of_a_pledge_lists_it():
    """Neither a receipt of another book, alone or in its link, nor one that was replaced."""
    with an_open_book() as pages:
        receipt, link = take_a_ring()
        status, said = pages.session.broker("POST", "/books/7/pledges/1/declare", {"paper": "sworn"})
        expect("the declaration", status, 200)
        newest, other = said["receipt"], "1-" + "0123abcd-" * 3 + "0123abcd"
        part("all")
        browser.press("#book-line button", "Read the book again")
        browser.fill("#searching", text=newest)
        browser.until("return document.querySelector('#search-count').textContent.startsWith('1 of 1 pledges')", "the pledge")
        for typed, count in ((newest, 1), (receipt, 0), (other, 0), (link.replace("book=7", "book=8"), 0)):
            browser.fill("#searching", text=typed)
            browser.says(f"{count} of 1 pledges", "#search-count")
            told = "Press Enter" in browser.text("#search-count")
            expect(f"what to do is said of {typed}", told, count == 0)
        browser.run("document.querySelector('#search-text').focus()")
        browser.keys("\ue007")
        browser.says("That receipt is of book 8", "#all")
        browser.fill("#searching", text=newest)
        browser.says("1 of 1 pledges", "#search-count")
        expect("it is not said of another receipt", "That receipt is of book 8" in browser.text("#all"), False)
        no_faults()


def a_receipt_that_lacks_a_digit_is_told_in_the_list_of_pledges():
    """As where it is found. A text that lists a pledge is not called a receipt."""
    with an_open_book() as pages:
        named = "1-" + "a" * 31
        pages.session.open_pledge(1, article=f"Ring {named}")
        receipt, _ = take_a_ring(reference="A2")
        part("all")
        browser.press("#book-line button", "Read the book again")
        browser.says("2 of 2 pledges", "#search-count")
        for typed, says in (
            (receipt[:-1], "That is no whole receipt. There are 31 digits after the number, and a receipt has 32."),
            (receipt[:-1] + "x", "That is no whole receipt. It has the letter “x”"),
        ):
            browser.fill("#searching", text=typed)
            browser.says("0 of 2 pledges", "#search-count")
            browser.run("document.querySelector('#search-text').focus()")
            browser.keys("\ue007")
            browser.says(says, "#searching")
        for typed, count in (("no such ring", 0), (named, 1)):
            browser.fill("#searching", text=typed)
            browser.says(f"{count} of 2 pledges", "#search-count")
            browser.run("document.querySelector('#search-text').focus()")
            browser.keys("\ue007")
            browser.rests()
            expect(f"nothing is said of {typed}", browser.text("#searching .notice"), "")
        no_faults()


def the_number_of_a_book_is_read_as_it_is_printed():
    """The paper says "book 7", so that is what is typed."""
    with Pages() as pages:
        make_book(pages)
        receipt = pages.session.open_pledge(1)
        for typed in ("book 7", "Book no. 7", "book number 7", " 7. ", "(7)"):
            browser.forget()
            browser.go(f"{pages.address}/pawn/")
            browser.fill("#find", receipts=receipt, book=typed)
            browser.press("#find button")
            browser.says("Gold ring", "#cards")
            browser.forget()
            browser.go(pages.address + "/broker/")
            browser.fill("#open", book=typed, key=BROKER)
            browser.press("#open button")
            browser.says("Book 7", "#whose-book")
        for typed in ("l7", "7a", "7 8", "book", "0"):
            browser.forget()
            browser.go(f"{pages.address}/pawn/")
            browser.fill("#find", receipts=receipt, book=typed)
            browser.press("#find button")
            browser.says("The book is a number", "#find")
        longest = "return [document.querySelector('[name=book]').maxLength > 'book number 999999999'.length]"
        expect("there is room for it", browser.run(longest), [True])
        no_faults()


def blanks_and_capitals_are_read_everywhere():
    with Pages() as pages:
        make_book(pages)
        receipt = pages.session.open_pledge(1)
        blanks = receipt.replace("-", " ")
        browser.forget()
        browser.go(f"{pages.address}/pawn/#BOOK=7&RECEIPT={receipt.upper()}")
        browser.says("Gold ring", "#cards")
        browser.forget()
        browser.go(f"{pages.address}/pawn/")
        browser.fill("#find", receipts=blanks, book="7")
        browser.press("#find button")
        browser.says("Gold ring", "#cards")
    with an_open_book() as pages:
        receipt, link = take_a_ring()
        for typed in (receipt.replace("-", " "), link.replace("book=", "BOOK=").replace("receipt=", "Receipt=")):
            find(typed)
            browser.says("This receipt is live.", "#commands")
        browser.fill(".action[open] form", receipt=receipt.replace("-", "  "), amount="99")
        browser.press(".action[open] button", "Redeem")
        browser.says("redeeming requires all of it", "#commands")
        no_faults()


def several_pledges_have_a_sum_and_are_looked_at_again():
    with Pages() as pages:
        make_book(pages)
        receipts = [pages.session.open_pledge(number, article=f"Ring {number}") for number in (1, 2, 3)]
        browser.forget()
        browser.go(f"{pages.address}/pawn/#book=7&" + "&".join(f"receipt={one}" for one in receipts))
        browser.says("£300.00 is owed today on 3 pledges together.", "#sum-line")
        pages.session.broker("POST", "/books/7/pledges/2/repay", {"pence": 2500, "seq": 1})
        browser.press("#look-again")
        browser.says("£275.00 is owed today on 3 pledges together.", "#sum-line")
        browser.says("£75.00 owed today", "#cards")
        browser.shoot("pawn-sum")
        browser.press("button", "Put this receipt away")
        browser.says("on 2 pledges together.", "#sum-line")
        no_faults()


def a_link_with_several_receipts_says_of_none_what_is_of_one():
    """Its reference, its terms and its days of grace are of one pledge, and nobody knows of which."""
    with Pages() as pages:
        make_book(pages)
        receipts = [pages.session.open_pledge(number, article=f"Ring {number}", ref=f"A{number}") for number in (1, 2)]
        link = "&".join(f"receipt={one}" for one in receipts)
        browser.forget()
        browser.go(f"{pages.address}/pawn/#book=7&{link}&terms=2667.0.0&grace=0&shop=High+Street&ref=A1")
        browser.says("£200.00 is owed today on 2 pledges together.", "#sum-line")
        browser.says("Pledge 2 at High Street", "#cards")
        shown = browser.text("#cards")
        for never in ("Reference", "Days of grace", "£8.00 in 30 days", "as the receipt’s link says"):
            expect(f"it says {never}", never in shown, False)
        expect("each may have days of grace", shown.count("five days more, if your paper says"), 2)
        no_faults()


def a_sum_says_what_is_on_hold():
    """A pawnor who brings the sum can't redeem all of it."""
    with Pages() as pages:
        make_book(pages)
        receipts = [pages.session.open_pledge(number, article=f"Ring {number}", ref=f"A{number}") for number in (1, 2, 3)]
        browser.forget()
        browser.go(f"{pages.address}/pawn/#book=7&" + "&".join(f"receipt={one}" for one in receipts))
        browser.says("£300.00 is owed today on 3 pledges together.", "#sum-line")
        expect("no hold", "on hold" in browser.text("#sum-line"), False)
        for number, says in ((2, "1 of them is on hold"), (3, "2 of them are on hold")):
            pages.session.broker("POST", f"/books/7/pledges/{number}/hold")
            browser.press("#look-again")
            browser.says(f"{says}, and can’t be redeemed just now.", "#sum-line")
        no_faults()


def a_large_sum_has_room_at_any_size_of_letters():
    """A telephone of 360 pixels at 200 % shows 180."""
    with Pages() as pages:
        make_book(pages)
        receipt = pages.session.open_pledge(1, pence=99_999_999)
        show_receipt(pages, receipt)
        browser.says("£999,999.99 owed today", "#cards")
        try:
            for width in (320, 180, 160):
                browser.resize(width)
                reach = "return [...document.querySelectorAll('.amount, .amount strong')].map((one) => " \
                    "one.getBoundingClientRect().right <= document.querySelector('.pledge').getBoundingClientRect().right)"
                expect(f"the sum is within its card at {width}", browser.run(reach), [True, True])
        finally:
            browser.resize(390)
        no_faults()


def pledges_of_several_shops_have_a_sum_for_each():
    """No shop is owed the sum of all. Each is called as on its pledges."""
    with Pages() as pages:
        links = []
        for book, pence in ((7, 6000), (8, 4500)):
            make_book(pages, book)
            receipts = [pages.session.open_pledge(number, book, pence=pence, ref=f"A{number}") for number in (1, 2)]
            links += [f"{pages.address}/pawn/#book={book}&receipt={one}" for one in receipts[:9 - book]]
        links[-1] += "&terms=2667.0.0&grace=0&shop=Corner+Pawn"
        browser.forget()
        browser.go(f"{pages.address}/pawn/")
        browser.fill("#find", receipts="\n".join(links))
        browser.press("#find button")
        browser.says("£165.00 is owed today on 3 pledges together: £120.00 in book 7 and £45.00 at "
                     "Corner Pawn (book 8).", "#sum-line")
        no_faults()


def a_receipt_that_opens_an_old_and_a_new_book_is_one_pledge():
    """After a book was filled from another's file, both answer to the receipt; the article is one, and is owed once."""
    with Pages() as pages:
        text = book_text([("Jug", "R/1", 9000, ago(30), "", "no")])
        for book in (7, 8):
            make_book(pages, book, terms=False)
            fill_book(pages, text, book)
        browser.forget()
        browser.go(f"{pages.address}/pawn/")
        links = [f"{pages.address}/pawn/#book={book}&receipt=1-{secret_of(1)}" for book in (7, 8)]
        browser.fill("#find", receipts="\n".join(links))
        browser.press("#find button")
        browser.says("One of these receipts opens a pledge in two books: that is one article, and is owed once.", "#sum-line")
        no_faults()


def what_will_be_owed_is_told_by_the_link():
    """By the terms of the link, with the days of grace; a receipt without its link has no such form."""
    with Pages() as pages:
        make_book(pages, terms=False)
        fill_book(pages, book_text([("Ring", "R/1", 10000, ago(30), "", "yes")], rates=(2667, 1000000, 500000)))
        receipt = f"1-{secret_of(1)}"
        browser.forget()
        browser.go(f"{pages.address}/pawn/#book=7&receipt={receipt}&terms=2667.1000000.500000&grace=5&ref=R%2F1")
        end = six_months_after(ago(30))
        last = end + datetime.timedelta(days=5)
        for says in (
            f"Kept for you until {in_words(last)}", "five days of grace follow", "R/1", "£8.00 in 30 days on £100",
            "30p in 30 days, after the end 15p in 30 days", "are as the receipt’s link says",
        ):
            browser.says(says, "#cards")
        unfold("See what will be owed on another day")
        browser.fill(".action[open] form", day=str(ago(-30)))
        browser.press(".action[open] button", "Calculate")
        browser.says(f"On {in_words(ago(-30))} £116.60 will be owed", "#cards")
        browser.rests()
        browser.fill(".action[open] form", day=str(last + datetime.timedelta(days=1)))
        browser.press(".action[open] button", "Calculate")
        browser.says(f"From {in_short(last + datetime.timedelta(days=1))} on it may have been sold.", "#cards")
        browser.shoot("pawn-reckoned")
        show_receipt(pages, receipt)
        browser.says(f"Kept for you until {in_words(end)}", "#cards")
        browser.says("five days more, if your paper says that it has days of grace", "#cards")
        expect("no form", "what will be owed" in browser.text("#cards"), False)
        no_faults()


def a_visit_that_is_over_is_not_offered_to_be_cancelled():
    with Pages() as pages:
        make_book(pages, terms=False)
        text = book_text([("Ring", "Ring-1", 10000, ago(30), "", "no")]) + f"K,1,{ago(3)},2,confirmed" + "," * 10 + "\n"
        fill_book(pages, text)
        show_receipt(pages, f"1-{secret_of(1)}")
        browser.says("confirmed, on a day that is over", "#cards")
        expect("no cancelling", "Cancel the visit" in browser.text("#cards"), False)
        browser.says("Ask for a time to come", "#cards")
        no_faults()


def a_visit_in_the_days_of_grace_is_in_time():
    with Pages() as pages:
        make_book(pages, terms=False)
        fill_book(pages, book_text([("Ring", "Ring-1", 20000, ago(400), ago(2), "yes")]))
        show_receipt(pages, f"1-{secret_of(1)}")
        browser.says("days of grace run: 3 days left", "#cards")
        command("Ask for a time to come", "Ask for this time", day=str(ago(-3)), window="3")
        # The result is shown above the forms once the look after the act has ended.
        browser.says(f"Asked for {in_words(ago(-3))}", "#cards .pledge > .notice")
        pages.session.broker("POST", "/books/7/pledges/1/decide", {"yes": False})
        browser.press("#look-again")
        browser.says("refused by the shop", "#cards")
        expect("what was said before is gone", "The shop says yes or no" in browser.text("#cards"), False)
        command("Ask for a time to come", "Ask for this time", day=str(ago(-4)), window="3")
        browser.says(f"The time of this pledge is over after {in_words(ago(-3))}.", "dialog")
        browser.press("dialog button", "Choose another day")
        no_faults()


def what_comes_after_the_end_is_told():
    """To the pawnor, too: a small credit's article is lost at once, another may be fetched until it is sold."""
    with Pages() as pages:
        make_book(pages, terms=False)
        fill_book(pages, book_text([
            ("Ring", "R-1", 7500, ago(30), "", "no"), ("Cup", "R-2", 7501, ago(30), "", "no"),
            ("Pin", "R-3", 7500, ago(187), "", "yes"),
        ]))
        for number, says in (
            (1, "after that it belongs to the pawnbroker, and can’t be redeemed any more"),
            (2, "after that it may be sold, and can be redeemed until it is sold"),
            (3, "after that it belongs to the pawnbroker, and can’t be redeemed any more"),
        ):
            show_receipt(pages, f"{number}-{secret_of(number)}")
            browser.says(says, "#cards .state")
        browser.says("Last days", "#cards")
        no_faults()


def a_visit_that_is_confirmed_after_the_end_keeps_no_article():
    """A pawnor who reads "confirmed" would wait for that day. Where the days of grace are not known, they count."""
    with Pages() as pages:
        make_book(pages)
        receipt = pages.session.open_pledge(1)
        may_be_sold = "confirmed, but the article may be sold before then"
        for days, link, is_late in ((0, "", False), (5, "", False), (5, "&terms=2667.0.0&grace=0", True), (6, "", True)):
            day = six_months_after(today()) + datetime.timedelta(days=days)
            pages.session.bearer(receipt, "POST", "/books/7/held/ask", {"day": str(day), "window": 3})
            expect("confirmed", pages.session.broker("POST", "/books/7/pledges/1/decide", {"yes": True})[0], 200)
            show_receipt(pages, receipt + link)
            browser.says(f"{in_words(day)}, 10:30 to 11:00: confirmed", "#cards")
            expect(f"{days} days after the end{link}", may_be_sold in browser.text("#cards"), is_late)
        no_faults()


def a_late_visit_of_a_receipt_without_its_link_may_be_in_time():
    """The page does not know its days of grace, and says so."""
    with a_pledge_by_its_receipt() as (_, receipt):
        end = six_months_after(today())
        command("Ask for a time to come", "Ask for this time", day=str(end + datetime.timedelta(days=3)), window="3")
        browser.says(f"The time of this pledge is over after {in_words(end)}.", "dialog")
        browser.says("If your paper says that it has days of grace, they last five days more.", "dialog")
        browser.press("dialog button", "Choose another day")
        no_faults()


main(
    (),
    (
        a_receipt_that_opens_nothing_is_not_called_used,
        a_receipt_that_the_pledge_never_had_may_be_of_another_book, a_cut_link_is_told,
        a_link_that_is_cut_in_its_terms_says_no_other_terms, a_link_out_of_a_mail_is_read_as_it_was_meant,
        a_link_whose_hash_sign_was_changed_shows_its_pledge, a_link_in_any_spelling_is_found_at_the_counter,
        only_the_newest_receipt_of_a_pledge_lists_it,
        a_receipt_that_lacks_a_digit_is_told_in_the_list_of_pledges,
        the_number_of_a_book_is_read_as_it_is_printed, blanks_and_capitals_are_read_everywhere,
        several_pledges_have_a_sum_and_are_looked_at_again, a_sum_says_what_is_on_hold,
        a_link_with_several_receipts_says_of_none_what_is_of_one, a_large_sum_has_room_at_any_size_of_letters,
        pledges_of_several_shops_have_a_sum_for_each,
        a_receipt_that_opens_an_old_and_a_new_book_is_one_pledge,
        what_will_be_owed_is_told_by_the_link,
        a_visit_that_is_over_is_not_offered_to_be_cancelled, a_visit_in_the_days_of_grace_is_in_time,
        what_comes_after_the_end_is_told, a_visit_that_is_confirmed_after_the_end_keeps_no_article,
        a_late_visit_of_a_receipt_without_its_link_may_be_in_time,
    ),
)
