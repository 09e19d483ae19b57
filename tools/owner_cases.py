#!/usr/bin/env python3
"""Makes the owners' cases: tests/owners/NAME/, a folder for each with the files that are there, `command`, what is run beside
them, `status`, how it must end, and in `after/` the files that must be there then and were not, or not so. What must be
printed, `out` and `err`, is kept beside them and not made here.

Filings and lists are built from the good stations of list_in_cases.py; nothing here reads a list or judges one.

usage: owner_cases.py     from the repository's root
"""
import os
import shutil

from desk_cases import STATION, header, record, reference, write
from list_in_cases import SPELLED, good, line, trimmed
from makers import asked

AT = "tests/owners/"
BOM = b"\xef\xbb\xbf"
TITLES = open("docs/RULES.md", encoding="utf-8").read().split("## Stations: each field")[1].split("\n\n")[1].split("\n")[2:]
TITLES = ";".join(row.split(" | ")[1] for row in TITLES).encode("ascii") + b"\n"


def filing(records):
    return header(len(records)) + b"".join(records)


# Seven good stations in the one spelling, and their lines.
LINES, RECORDS = map(list, zip(*(good(k) for k in range(1, 8))))
SEVEN = filing(RECORDS)
LIST = b"".join(LINES)


# An owner's defaults for carriages: an accepted ML station.
DEPOT = b"00456.50000;M;2;ML;CP;L;1;01032021;9999_DEPOT;AUT;016E220548N1200;00010;;5M00G7W;000.0;E;;;V;00.0;0003;000ND00;000ND00;00466.50000;M;" + b" " * 50 + b";B;;;AUT2311AB01A001\n"


def changed(k, **fields):
    """Station S under reference k with some fields changed, as a line and as a record."""
    changes = {name.lstrip("_"): text for name, text in fields.items()}
    changes["13X"] = reference(k, 0)
    return line(trimmed(changes)), record(STATION, {**SPELLED, **changes})


def one_spelling(made):
    """The line that list_out gives of a record in the one spelling."""
    fields = []
    for name, text in STATION.items():
        field, made = made[:len(text)], made[len(text):]
        fields.append(field if name == "13Z" else field.strip())
    return b";".join(fields) + b"\n"


def saved(name):
    """A list of the seven stations and their titles, or of one that has a cell, as LibreOffice Calc 7.4 saved it."""
    with open("tests/saved/%s.csv" % name, "rb") as f:
        return f.read()


def quoted(row):
    return b";".join(b'"%s"' % cell for cell in row.rstrip(b"\n").split(b";")) + b"\n"


def windows(text):
    return text.replace(b"\n", b"\r\n")


def cases():
    bad = LINES[:2] + [LINES[2].replace(b";FB;", b";FBX;").replace(b";ML;", b";MLX;").replace(b";FL;", b";FLX;")] + LINES[3:]
    bad = b"".join(bad)
    some = {"my": SEVEN, "list.csv": LIST}

    # The rows of the table, one by one.
    yield "a_line_lost_in_a_pipe", 1, "list_in bad.csv | filing my - | desk", {"my": SEVEN, "bad.csv": bad}, {}
    yield "a_refused_line", 1, "file_list --yes my bad.csv new", {"my": SEVEN, "bad.csv": bad}, {}
    kinds = b"".join(line for line, _ in (changed(1, _9A="360.0"), changed(2, _2C="30022021"), changed(3, _1A="  938,2    "), changed(4, _8B1="    30"), changed(5, **{"1A unit": " "}), changed(6, _6A="ML")))
    yield "kinds_of_refused_lines", 1, "file_list --yes --fewer my bad.csv new", {"my": SEVEN, "bad.csv": kinds}, {}
    yield "a_filing_onto_itself_by_the_shell", 1, "filing my records >my", {"my": SEVEN, "records": b"".join(RECORDS[:6])}, {"my": b""}
    yield "a_filing_onto_itself", 0, "filing my records my", {"my": SEVEN, "records": b"".join(RECORDS[:6])}, {"my": filing(RECORDS[:6])}
    fewer = b"".join(LINES[:2] + LINES[4:])
    yield "two_rows_deleted", 1, "file_list --yes my list.csv my", {"my": SEVEN, "list.csv": fewer}, {}
    yield "two_rows_deleted_and_asked_for", 0, "file_list --yes --fewer my list.csv my", {"my": SEVEN, "list.csv": fewer}, {"my": filing(RECORDS[:2] + RECORDS[4:])}
    yield "a_reference_gone", 1, "file_list --yes my list.csv my", {"my": SEVEN, "list.csv": b"".join(LINES[:6]) + good(9)[0]}, {}
    yield "an_empty_list", 1, "file_list --yes --fewer my list.csv new", {"my": SEVEN, "list.csv": b""}, {}
    yield "an_empty_list_taken_in", 1, "list_in list.csv", {"list.csv": b""}, {}
    cell = changed(1, _1A="00938.25000", _2C="13032021", _8B1=" 030.5", _9A="120.5", _9B="-02.5", _9G="17.5", _1Y="00893.25000", _13Z="20000001E2".ljust(50))
    yield "a_number_made_of_a_cell", 1, "echo no | file_list my list.csv my", {"my": filing([cell[1]]), "list.csv": saved("calc_standard_cell")}, {}
    yield "carriage_returns", 1, "list_in list.csv", {"list.csv": windows(LIST)}, {}
    yield "a_byte_order_mark", 1, "list_in list.csv", {"list.csv": BOM + LIST}, {}
    yield "quoted_cells", 1, "list_in list.csv", {"list.csv": b"".join(map(quoted, LINES))}, {}
    yield "a_row_of_titles", 1, "list_in list.csv", {"list.csv": TITLES + LIST}, {}
    yield "titles_of_ones_own", 1, "list_in list.csv", {"list.csv": b";".join(b"Spalte %c" % c for c in range(65, 91)) + b";a;b;c;d\n" + LIST}, {}
    dotted = LIST.replace(b";01032021;", b";01.03.2021;")
    yield "dotted_dates", 1, "list_in list.csv", {"list.csv": dotted}, {}
    twice = filing([RECORDS[0], RECORDS[1], RECORDS[0]])
    broken = filing([RECORDS[0], record(STATION, {"9A": "360.0"})])
    moved = filing([RECORDS[0], changed(2, _9Y="0031")[1]])
    yield "desk_on_a_twin", 1, "desk my", {"my": twice}, {}
    yield "desk_on_a_clash", 1, "desk my", {"my": moved}, {}
    yield "desk_on_a_bad_station", 1, "desk my", {"my": broken}, {}
    yield "desk_on_a_bad_header", 1, "desk my", {"my": header(1, {"version": "2.0"}) + RECORDS[0]}, {}
    yield "desk_on_a_header_alone", 1, "desk my", {"my": header(0)}, {}
    yield "desk_on_no_filing", 1, "desk my", {"my": SEVEN[:-1]}, {}
    yield "desk_on_a_good_filing", 0, "desk my; desk <my; desk - <my; desk -- my", {"my": SEVEN}, {}
    yield "operators_of_a_bad_station", 1, "operators my", {"my": broken}, {}
    yield "operators_of_a_header_alone", 1, "operators my", {"my": header(0)}, {}
    yield "operators_of_no_filing", 1, "operators my", {"my": SEVEN[:-1]}, {}
    yield "operators_of_a_good_filing", 0, "operators my; operators <my; operators - <my; operators -- my", {"my": SEVEN}, {}
    yield "list_out_of_a_bad_station", 1, "list_out --titles my", {"my": broken}, {}
    yield "list_out_of_no_filing", 1, "list_out --titles my", {"my": SEVEN[:-1]}, {}
    yield "list_out_of_a_header_alone", 1, "list_out my", {"my": header(0)}, {}
    for tool, words in (("desk", ""), ("operators", ""), ("list_out", ""), ("list_in", ""), ("clean_list", ""), ("filing", ""), ("carriages", ""), ("changes", "my "), ("verify", "my "), ("replay", "my "), ("file_list", "my list.csv ")):
        yield tool + "_on_a_directory", 2, "mkdir folder; %s %sfolder; status=$?; rmdir folder; exit $status" % (tool, words), some, {}
        yield tool + "_on_no_file", 2, "%s %snowhere/none" % (tool, words), some, {}
        yield tool + "_with_an_unknown_option", 2, "%s --all %smy" % (tool, words), some, {}
        yield tool + "_with_a_word_too_many", 2, "%s %smy my more more" % (tool, words), some, {}
        yield tool + "_help", 0, "%s -h" % tool, {}, {}

    # Each kind of save.
    listed = b"".join(map(one_spelling, RECORDS))
    clean = "clean_list list.csv >clean.csv && file_list --yes my clean.csv new"
    for kind in "text", "text_quoted":
        yield "saved_by_calc_as_" + kind, 0, clean, {"my": SEVEN, "list.csv": saved("calc_" + kind)}, {"clean.csv": listed, "new": SEVEN}
    standard = saved("calc_standard")
    yield "saved_by_calc_with_standard_columns", 1, clean, {"my": SEVEN, "list.csv": standard}, {"clean.csv": standard.split(b"\n", 1)[1]}
    yield "saved_by_calc_with_commas", 1, "clean_list list.csv", {"list.csv": saved("calc_text_saved_with_commas")}, {}
    yield "saved_by_calc_as_the_window_proposes", 1, "list_in list.csv", {"list.csv": saved("calc_window")}, {}
    yield "saved_by_excel", 0, clean, {"my": SEVEN, "list.csv": windows(LIST)}, {"clean.csv": LIST, "new": SEVEN}
    yield "saved_by_excel_as_utf_8", 0, clean, {"my": SEVEN, "list.csv": BOM + windows(TITLES + LIST)}, {"clean.csv": LIST, "new": SEVEN}
    yield "saved_with_sep", 0, "clean_list list.csv >clean.csv", {"list.csv": BOM + windows(b"sep=;\n" + TITLES + b"".join(map(quoted, LINES)) + b";" * 29 + b"\n\n")}, {"clean.csv": LIST}
    yield "saved_with_commas", 1, "clean_list list.csv | list_in", {"list.csv": windows(LIST.replace(b";", b","))}, {}
    yield "saved_with_quotes_and_commas", 1, "clean_list list.csv", {"list.csv": windows(b"".join(map(quoted, LINES)).replace(b";", b","))}, {}
    yield "saved_as_utf_16", 1, "clean_list list.csv", {"list.csv": LIST.decode().encode("utf-16")}, {}

    # What clean_list refuses, and leaves.
    yield "clean_list_a_quotation_mark_inside", 1, "clean_list list.csv", {"list.csv": LINES[0].replace(b";FB;", b';"F""B";')}, {}
    yield "clean_list_a_semicolon_inside", 1, "clean_list list.csv", {"list.csv": LINES[0].replace(b";CP;", b';"C;P";')}, {}
    yield "clean_list_a_line_feed_inside", 1, "clean_list list.csv", {"list.csv": LINES[0].replace(b";CP;", b';"C\nP";')}, {}
    yield "clean_list_a_carriage_return_inside", 1, "clean_list list.csv", {"list.csv": LINES[0].replace(b";CP;", b";C\rP;")}, {}
    yield "clean_list_titles_sorted_down", 1, "clean_list list.csv", {"list.csv": LIST + TITLES}, {}
    yield "clean_list_another_separator", 1, "clean_list list.csv", {"list.csv": b"sep=,\n" + LIST}, {}
    yield "clean_list_empty_rows_alone", 1, "clean_list list.csv", {"list.csv": b";" * 29 + b"\n\r\n"}, {}
    middle = LINES[0] + b";" * 29 + b"\n" + LINES[1]
    yield "clean_list_leaves_an_empty_row_between", 0, "clean_list list.csv | cmp - list.csv", {"list.csv": middle}, {}
    yield "clean_list_leaves_a_last_line_cut_off", 0, "clean_list list.csv | cmp - list.csv", {"list.csv": LIST[:-1]}, {}

    # Out with titles and in again.
    yield "there_and_back", 0, "list_out --titles my >list.csv && clean_list list.csv >clean.csv && file_list --yes my clean.csv my", {"my": SEVEN}, {"list.csv": TITLES + listed, "clean.csv": listed}

    # Filing a list.
    order = LINES[3:4] + LINES[0:3] + [LINES[4], LINES[6], LINES[5], good(20)[0]]
    yield "changes_shown_and_agreed", 0, "echo yes | file_list my list.csv my", {"my": SEVEN, "list.csv": b"".join(order)}, {"my": filing([RECORDS[3]] + RECORDS[0:3] + [RECORDS[4], RECORDS[6], RECORDS[5], good(20)[1]])}
    yield "changes_not_agreed", 1, "echo no | file_list my list.csv my", {"my": SEVEN, "list.csv": b"".join(order)}, {}
    yield "no_answer", 1, "file_list my list.csv my </dev/null", some, {}
    yield "a_list_on_standard_input", 0, "file_list --yes my - new <list.csv", some, {"new": SEVEN}
    yield "a_list_on_standard_input_without_yes", 2, "file_list my - new <list.csv", some, {}
    yield "names_with_spaces_and_dashes", 0, "file_list --yes -- 'my filing' '-list of ours.csv' -new && desk -- -new", {"my filing": SEVEN, "-list of ours.csv": LIST}, {"-new": SEVEN}
    yield "the_list_as_new", 2, "file_list --yes my list.csv list.csv", some, {}
    yield "twins_are_filed_and_named", 1, "file_list --yes my list.csv my", {"my": SEVEN, "list.csv": LIST + LINES[2]}, {"my": filing(RECORDS + [RECORDS[2]])}
    higher = changed(8, _9Y="0031")
    yield "clashes_are_filed_and_named", 1, "file_list --yes my list.csv my", {"my": SEVEN, "list.csv": LIST + higher[0]}, {"my": filing(RECORDS + [higher[1]])}
    yield "a_bad_header", 1, "file_list --yes my list.csv new", {"my": header(7, {"version": "1.1"}) + b"".join(RECORDS), "list.csv": LIST}, {}
    yield "old_is_no_filing", 1, "file_list --yes my list.csv new", {"my": SEVEN[:-1], "list.csv": LIST}, {}
    yield "a_first_list", 0, "file_list --yes my list.csv my", {"my": header(0), "list.csv": LIST}, {"my": SEVEN}
    many = [good(k) for k in range(1, 300)]
    yield "stations_299", 1, "file_list --yes my list.csv new", {"my": header(0), "list.csv": b"".join(l for l, _ in many)}, {}
    yield "a_link_is_kept", 0, "ln -s my link && file_list --yes link list.csv link && test -L link && rm link", some, {}

    # Nothing is lost where it cannot be done.
    yield "a_full_disk", 2, "(ulimit -f 1; trap '' XFSZ; file_list --yes my list.csv my)", some, {}
    yield "a_full_disk_that_kills", 0, "(ulimit -f 1; file_list --yes my list.csv my) >said 2>&1; rm -f said .my.new-*", some, {}
    yield "killed_at_the_question", 137, "exec 2>/dev/null; mkfifo answer; file_list my list.csv my <answer >said 2>&1 & exec 3>answer; until grep -q 'yes or no' said; do sleep 0.05; done; kill -KILL $!; wait $!; status=$?; rm answer said; exit $status", some, {}
    yield "old_changed_at_the_question", 1, "mkfifo answer; file_list my list.csv my <answer >said 2>&1 & exec 3>answer; until grep -q 'yes or no' said; do sleep 0.05; done; printf x >>my; echo yes >&3; wait $!; status=$?; tail -n 1 said; rm answer said; exit $status", some, {"my": SEVEN + b"x"}
    yield "a_list_that_cannot_be_read", 2, "file_list --yes my /proc/self/mem my", some, {}
    yield "a_folder_that_is_not_there", 2, "file_list --yes my list.csv nowhere/new", some, {}

    # Changes.
    two = changed(2, _13Z=("2" + " " * 12 + "Stadtplatz 1").ljust(50)), changed(2, _13Z=("2" + " " * 12 + "Stadtplatz 2").ljust(50), _4Z="0181")
    yield "changed_fields", 0, "changes old new", {"old": filing([RECORDS[0], two[0][1]]), "new": filing([RECORDS[0], two[1][1]])}, {}
    yield "changes_none", 0, "changes my my", {"my": SEVEN}, {}
    yield "changes_of_twins", 0, "changes old new", {"old": filing([RECORDS[0], RECORDS[1], RECORDS[0]]), "new": filing([changed(1, _4Z="0199")[1], RECORDS[0], RECORDS[1], RECORDS[0]])}, {}
    yield "changes_of_spelling", 0, "changes old new", {"old": filing([record(STATION, {"13X": reference(1, 0)})]), "new": filing([record(STATION, {**SPELLED, "13X": reference(1, 0)})])}, {}
    yield "changes_of_a_header", 0, "changes old new", {"old": SEVEN, "new": header(7, {"person": "NOVAK, B.".ljust(20)}) + b"".join(RECORDS)}, {}
    yield "changes_to_nothing", 1, "changes old new", {"old": SEVEN, "new": header(0)}, {}
    yield "changes_of_no_filing", 1, "changes old new", {"old": SEVEN, "new": SEVEN[:-1]}, {}

    # Sheets from the partner desk: of seven good stations, of three with a twin, and of two at one site that stand apart.
    sheet = bytes(35) + b"\x00\x2d\x05\x00\x00\x00\x00\x002C"
    yield "verify_a_right_sheet", 0, "verify my sheet; verify - sheet <my; verify my - <sheet", {"my": SEVEN, "sheet": sheet}, {}
    yield "verify_a_right_twin", 0, "verify my sheet", {"my": twice, "sheet": bytes(12) + b"\x01\x00\x00\x00\x19\x05\x00\x00\x03\x00\x012C"}, {}
    yield "verify_a_right_clash", 0, "verify my sheet", {"my": moved, "sheet": bytes(9) + b"\x01\x00\x14\x05\x00\x00\x02\x00\x012C"}, {}
    for what, place in (("first_byte", 0), ("code", 5), ("twin", 12), ("clash", 34), ("distance", 36), ("header_code", 38), ("lowest_row", 40), ("count", 42), ("mark", 44)):
        wrong = sheet[:place] + bytes([sheet[place] ^ 1]) + sheet[place + 1:]
        yield "verify_a_wrong_" + what, 1, "verify my sheet", {"my": SEVEN, "sheet": wrong}, {}
    yield "verify_a_short_sheet", 1, "verify my sheet", {"my": SEVEN, "sheet": sheet[1:]}, {}
    yield "verify_an_old_sheet", 1, "verify my sheet", {"my": SEVEN, "sheet": bytes(14) + b"\x00\x16\x02\x00\x00\x002A"}, {}
    yield "verify_a_sheet_without_clashes", 1, "verify my sheet", {"my": SEVEN, "sheet": bytes(21) + b"\x00\x1f\x03\x00\x00\x00\x00\x002B"}, {}
    yield "verify_no_filing", 1, "verify my sheet", {"my": SEVEN[:-1], "sheet": sheet}, {}
    yield "verify_both_on_standard_input", 2, "verify - -", {}, {}
    # A day's saves: 222 bytes each, a number of three digits and a record.
    new = [changed(k, _4Z="0%d99" % k)[1] for k in range(1, 8)]
    day = {"morning": SEVEN, "trace": b"".join(b"%03d" % k + new[k - 1] for k in (2, 7, 2))}
    left = {"list": filing([RECORDS[0], new[1], *RECORDS[2:6], new[6]])}
    yield "replay_a_day", 0, "replay morning trace list sheet && verify list sheet; status=$?; rm sheet; exit $status", day, left
    yield "replay_from_standard_input", 0, "replay - trace <morning && replay morning - <trace", day, {}
    yield "replay_no_saves", 0, "replay morning trace list", {**day, "trace": b""}, {"list": SEVEN}
    above = {**day, "trace": b"008" + new[0] + b"999" + new[0] + day["trace"]}
    yield "replay_a_number_above_the_last", 1, "replay morning trace list", above, left
    stopped = {**day, "trace": b"002" + new[1] + b" 03" + new[2] + b"004" + new[3]}
    first = {"list": filing([RECORDS[0], new[1], *RECORDS[2:]])}
    yield "replay_a_save_without_its_digits", 1, "replay morning trace list", stopped, first
    yield "replay_a_save_cut_short", 1, "replay morning trace list", {**day, "trace": b"002" + new[1] + b"003" + new[2][:-1]}, first
    yield "replay_a_header", 1, "replay morning trace list", {**day, "trace": b"000" + header(6)}, {"list": header(6) + b"".join(RECORDS)}
    yield "replay_a_twin", 1, "replay morning trace list", {**day, "trace": b"003" + RECORDS[0]}, {"list": filing([*RECORDS[:2], RECORDS[0], *RECORDS[3:]])}
    yield "replay_no_filing", 1, "replay morning trace list", {**day, "morning": SEVEN[:-1]}, {}
    for what in ("morning", "trace"):
        yield "replay_over_the_" + what, 2, "replay morning trace %s; replay morning trace list ./%s" % (what, what), day, {}
    yield "replay_into_one_name_twice", 2, "replay morning trace list list", day, {}
    yield "replay_into_no_folder", 2, "replay morning trace list nowhere/sheet", day, {}
    yield "replay_both_on_standard_input", 2, "replay - -", day, {}
    # Carriages: the defaults, and a line for each.
    two = {"carriages.csv": DEPOT + b"318166502860;456.5;M;-10.0;AUT2611AB01A001\n318166502878;456.51250;M;-10.0;AUT2611AB01A002\n"}
    yield "carriages_listed", 0, "carriages carriages.csv", two, {}
    yield "carriages_as_records", 0, "carriages --records - <carriages.csv", two, {}
    yield "carriages_none", 1, "carriages carriages.csv", {"carriages.csv": DEPOT}, {}
    yield "carriages_base_defaults", 1, "carriages carriages.csv", {"carriages.csv": two["carriages.csv"].replace(b";ML;", b";FB;").replace(b";00010;", b";00000;")}, {}
    bad = b"318166502861;456.5;M;-10.0;AUT2611AB01A001\n31 81 665 0286-0;456.5;M;-10.0;AUT2611AB01A002\n318166502860;456.5;M;-10.0\n"
    bad += b"318166502860;000456.500000;M;-10.0;AUT2611AB01A002\n318166502860;456.5;m;-10.0;AUT2611AB01A002\n318166502860;;;;AUT2611AB01A001\n"
    yield "carriages_refused", 1, "carriages carriages.csv", {"carriages.csv": DEPOT + bad}, {}
    for name, status, command, files, after in store_cases():
        yield "store_" + name, status, command, {"my": SEVEN, **files}, after


def store_cases():
    """A stored desk. Where a case makes a store, `box`, it is taken away at the end; dates are not the same each day."""
    every = "new report explain operators list save set show file-list export saves again day"
    dated = " | sed 's/[0-9]*-[0-9]*-[0-9]*/DATE/'"

    def boxed(command):
        return "store new box my >/dev/null 2>&1; %s; status=$?; rm -r box; exit $status" % command

    # Wrong words, and folders that are no store.
    yield "help", 0, "store -h", {}, {}
    yield "without_a_command", 2, "store", {}, {}
    yield "with_an_unknown_command", 2, "store mend box", {}, {}
    yield "with_an_unknown_option", 2, "store report --all box", {}, {}
    yield "with_words_missing", 2, "for name in %s; do store $name; done" % every, {}, {}
    yield "with_a_word_too_many", 2, "for name in %s; do store $name box 1 power 2 more; done" % every, {}, {}
    of_each = "for name in report explain operators list saves again day; do store $name %s; done; store save %s 1 record; store set %s 1 power 1; store show %s 1 1; store file-list --yes %s list.csv; store export %s new"
    some = {"record": RECORDS[0], "list.csv": LIST}
    yield "on_no_folder", 2, of_each % (("nowhere",) * 6), some, {}
    yield "on_a_file", 2, of_each % (("my",) * 6), some, {}
    yield "on_an_empty_folder", 2, "mkdir empty; " + of_each % (("empty",) * 6) + "; status=$?; rmdir empty; exit $status", some, {}

    # New ones.
    yield "new", 0, "store new box my && store report box; status=$?; rm -r box; exit $status", {}, {}
    yield "new_in_an_empty_folder", 0, "mkdir box; store new box my; status=$?; rm -r box; exit $status", {}, {}
    yield "new_of_bad_stations", 1, "store new box bad; store report box; status=$?; rm -r box; exit $status", {"bad": filing([RECORDS[0], RECORDS[0], record(STATION, {"9A": "360.0"})])}, {}
    yield "new_of_a_header_alone", 1, "store new box bad; store report box; status=$?; rm -r box; exit $status", {"bad": header(0)}, {}
    yield "new_of_no_filing", 1, "store new box bad", {"bad": SEVEN[:-1]}, {}
    yield "new_of_no_file", 2, "store new box nowhere", {}, {}
    yield "new_over_a_store", 2, boxed("store new box my"), {}, {}
    yield "new_in_a_folder_with_files", 2, "mkdir box; echo mine >box/mine; store new box my; status=$?; rm -r box; exit $status", {}, {}
    yield "new_in_no_folder", 2, "store new nowhere/box my", {}, {}
    yield "new_on_a_full_disk", 2, "(ulimit -f 1; trap '' XFSZ; store new box my)", {}, {}

    # Saving, setting, showing.
    new = changed(2, _4Z="0299")
    yield "save_a_record", 0, boxed("store save box 2 record && store save box 7 - <record7 && store show box 2 4Z && store report box"), {"record": new[1], "record7": RECORDS[6]}, {}
    yield "save_a_twin", 1, boxed("store report box; store save box 3 record; store report box"), {"record": RECORDS[0]}, {}
    yield "save_a_bad_record", 1, boxed("store save box 3 record"), {"record": record(STATION, {"9A": "360.0"})}, {}
    yield "save_a_header", 1, boxed("store save box 0 right; store save box 0 wrong"), {"right": header(7, {"person": "NOVAK, B.".ljust(20)}), "wrong": header(6)}, {}
    yield "save_a_short_record", 1, boxed("store save box 3 record; status=$?; store saves box; (exit $status)"), {"record": RECORDS[0][:-1]}, {}
    yield "save_above_the_last", 1, boxed("store save box 8 record"), {"record": RECORDS[0]}, {}
    yield "save_no_number", 2, boxed("store save box -3 record; store save box x record"), {"record": RECORDS[0]}, {}
    yield "save_no_file", 2, boxed("store save box 3 nowhere"), {}, {}
    yield "save_a_line", 0, boxed("store save box 2 --line \"$(cat line)\" && store list box | sed -n 2p | cmp - wanted"), {"line": new[0], "wanted": one_spelling(new[1])}, {}
    yield "save_a_refused_line", 1, boxed("store save box 2 --line \"$(cat line)\"; status=$?; store saves box; (exit $status)"), {"line": new[0].replace(b";M;", b";MHz;", 1)}, {}
    yield "save_a_line_as_the_header", 2, boxed("store save box 0 --line ';'"), {}, {}
    yield "set_each", 0, boxed("store set box 1 power -5.5 && store set box 1 azimuth 359.9 && store set box 1 elevation -90 && store set box 1 height -5 && store set box 1 ground 30 && for field in 8B1 9A 9B 4Z 9Y; do store show box 1 $field; done"), {}, {}
    yield "set_blank", 1, boxed("store set box 1 power blank && store set box 1 height blank; store show box 1 15; store set box 1 ground blank"), {}, {}
    yield "set_out_of_range", 1, boxed("store set box 1 azimuth 360.0; store set box 1 ground 31; store set box 1 ground 10000"), {}, {}
    yield "set_what_breaks_a_rule_between_fields", 1, boxed("store set box 2 azimuth 10"), {}, {}
    yield "set_no_value", 2, boxed("store set box 1 power high; store set box 1 power 1.25; store set box 1 height 1.5; store set box 1 gain 3; store set box 0 power 3; store set box 8 power 3; store set box 1 power ''"), {}, {}
    yield "show", 1, boxed("store show box 0 2; store show box 1 30; store show box 1 13X; store show box 1 2; store show box 1 31; store show box 8 1"), {}, {}

    # What the proved programs print, and the list itself.
    same = "explain my >wanted; operators my >>wanted; for name in explain operators; do store $name box; done | cmp - wanted && store list box | cmp - list.csv && store report box && store export box - | cmp - my; status=$?; rm wanted; (exit $status)"
    yield "as_the_programs", 0, boxed(same), {"list.csv": b"".join(map(one_spelling, RECORDS))}, {}
    yield "explain_a_bad_station", 1, "store new box bad >/dev/null 2>&1; store explain box; status=$?; rm -r box; exit $status", {"bad": filing([RECORDS[0], record(STATION, {"9A": "360.0"})])}, {}
    yield "export", 0, boxed("store export box new"), {}, {"new": SEVEN}
    yield "export_into_the_store", 2, boxed("store export box box/state; store export box box/day-1/new"), {}, {}
    yield "export_into_no_folder", 2, boxed("store export box nowhere/new"), {}, {}

    # Lists.
    order = {"list.csv": b"".join(LINES[1:] + [good(20)[0]])}
    filed = filing(RECORDS[1:] + [good(20)[1]])
    yield "file_list", 0, boxed("(echo yes | store file-list --fewer box list.csv)" + dated + " && store export box new && store saves box"), order, {"new": filed}
    yield "file_list_not_agreed", 1, boxed("echo no | store file-list --fewer box list.csv"), order, {}
    yield "file_list_with_a_station_gone", 1, boxed("store file-list --yes box list.csv"), order, {}
    yield "file_list_with_a_refused_line", 1, boxed("store file-list --yes box list.csv"), {"list.csv": LIST.replace(b";FB;", b";FBX;", 1)}, {}
    yield "file_list_on_standard_input", 2, boxed("store file-list --yes box - <list.csv" + dated + "; store file-list box - <list.csv"), {"list.csv": LIST}, {}
    yield "file_list_when_the_store_has_changed", 1, boxed("mkfifo answer; store file-list box list.csv <answer >said 2>&1 & exec 3>answer; until grep -q 'yes or no' said; do sleep 0.05; done; store save box 1 record; echo yes >&3; wait $!; status=$?; tail -n 1 said; rm answer said; (exit $status)"), {"list.csv": LIST, "record": changed(1, _4Z="0299")[1]}, {}

    # The day.
    day = {"record": new[1], "header": header(6)}
    yield "a_day", 1, boxed("store saves box; store save box 2 record; store save box 0 header; store saves box; store again box 0; store again box 1; store again box; store again box 3"), day, {}
    yield "a_day_closed", 1, boxed("store save box 2 record; store day box" + dated + "; store day box" + dated + "; store saves box; store again box; cp -r box/days/*-*-?? kept; store saves kept; store again kept 0; store save kept 1 record; status=$?; rm -r kept; (exit $status)"), day, {}
    yield "a_day_as_replay_takes_it", 0, boxed("store save box 2 record && replay box/day-1/morning box/day-1/saves new && store export box - | cmp - new; status=$?; rm new; (exit $status)"), day, {}

    # Stores that are not as they should be.
    saved = "store save box 2 record >/dev/null; "
    yield "with_foreign_bytes", 2, boxed("cp my box/state; store report box; store save box 2 record"), day, {}
    yield "of_a_newer_form", 2, boxed("echo 'store 2 open' >box/state; store report box"), {}, {}
    yield "with_a_damaged_list", 2, boxed("sed -i 's/MUSTER/MUSTEN/' box/state; store report box; store save box 2 record"), day, {}
    yield "with_a_wrong_sheet", 0, boxed("head -c -3 box/state >state; printf 'x2C' >>state; mv state box/state; store report box; store report box"), {}, {}
    yield "with_a_wrong_morning", 2, boxed("sed -i 's/MUSTER/MUSTEN/' box/day-1/morning; store report box; store day box; store again box"), {}, {}
    yield "with_wrong_saves", 2, boxed(saved + "sed -i 's/MUSTER/MUSTEN/' box/day-1/saves; store report box; store saves box; store day box"), day, {}
    yield "with_saves_lost", 2, boxed(saved + ": >box/day-1/saves; store report box; store save box 2 record"), day, {}
    yield "with_a_file_missing", 2, boxed(saved + "rm box/day-1/saves; store report box; store save box 2 record"), day, {}
    yield "with_a_save_cut_short", 0, boxed("head -c 100 record >>box/day-1/saves; store report box; store report box; store save box 2 record; store saves box"), day, {}
    yield "with_an_older_state", 0, boxed("cp box/state older; " + saved + saved + "mv older box/state; store show box 2 4Z; store show box 2 4Z"), day, {}
    yield "on_a_full_disk", 2, boxed("(ulimit -f 1; trap '' XFSZ; store save box 2 record); status=$?; store report box; store saves box; (exit $status)"), day, {}
    yield "on_a_full_disk_that_kills", 0, boxed("sh -c '(ulimit -f 1; store save box 2 record); :' >/dev/null 2>&1; store saves box"), day, {}


def main():
    names = set()
    for name, status, command, files, after in cases():
        at = AT + name + "/"
        names.add(name)
        kept = {what: open(at + what, "rb").read() for what in ("out", "err") if os.path.exists(at + what)}
        shutil.rmtree(at, ignore_errors=True)
        os.makedirs(at)
        for what, content in kept.items():
            write(at + what, content)
        for what, content in {**files, "command": command + "\n", "status": "%d\n" % status}.items():
            write(at + what, content)
        for what, content in after.items():
            os.makedirs(at + "after", exist_ok=True)
            write(at + "after/" + what, content)
    for name in sorted(set(os.listdir(AT)) - names):
        shutil.rmtree(AT + name)
    print(len(names), "cases")


if __name__ == "__main__":
    asked(__doc__)
    main()
