"""Runs of lines that end at a bad one: each mistake that a line can have, and where it stands. A comment names the mistake."""
from line_dialogues import EXAMPLES, LONGEST_NOTE, Operator
from line_parts import OPERATE, Run, counted, line, one
from machine_lines import BAD_LINE

LIMIT = 131_400


def bad(name, text):
    """A line that isn't of a form, between two that are: the first is answered, and the last isn't."""
    text = text if isinstance(text, bytes) else text.encode()
    return b"# " + name.encode() + b"\nstatus\n" + text + b"\nstatus\n"


def first_word(example):
    return example.split()[0]


def fewer(example):
    return example.rsplit(" ", 1)[0]


MORE_WORDS = {f"more_{first_word(example)}": f"{example} 0" for example in EXAMPLES}
FEWER_WORDS = {f"fewer_{first_word(example)}": fewer(example) for example in EXAMPLES if " " in example}

SPACES = {
    "space_doubled": "role  user",
    "space_doubled_later": "seal 1 16  00",
    "space_at_end": "step ",
    "space_at_end_of_words": "role user ",
    "space_in_front": " step",
    "space_in_front_of_words": " role user",
    "space_alone": " ",
    "spaces_alone": "   ",
    "space_before_note": " # a note",
    "space_for_last_word": "bytes ",
}

NUMBERS = {
    "number_with_plus": "poweron +1",
    "number_with_minus": "poweron -1",
    "number_below_zero": "poweron -0",
    "number_with_leading_zero": "poweron 01",
    "number_of_two_zeros": "poweron 00",
    "number_in_hex": "poweron 0x1",
    "number_with_letter": "poweron 1a",
    "number_with_point": "poweron 1.",
    "number_with_underscore": "poweron 1_000",
    "number_that_is_none": "poweron -",
    "period_past_limit": "poweron 4294967296",
    "period_of_two_to_64": "poweron 18446744073709551616",
    "period_of_two_to_128": "poweron 340282366920938463463374607431768211456",
    "period_of_many_digits": "poweron 1" + "0" * 6_000,
    "slot_past_limit": "slot 256",
    "slot_with_leading_zero": "slot 015",
    "zeroise_past_limit": "zeroise 256",
    "zeroisetree_past_limit": "zeroisetree 256",
    "begin_slot_past_limit": "begin 256 mac other keep 1 32",
    "begin_uses_past_limit": "begin 3 mac other keep 4294967296 32",
    "begin_length_past_limit": "begin 3 mac other keep 1 256",
    "generate_slot_past_limit": "generate 256 mac other keep 1 32",
    "generate_uses_past_limit": "generate 3 mac other keep 4294967296 32",
    "generate_length_past_limit": "generate 3 mac other keep 1 256",
    "mac_slot_past_limit": "mac 256 sha256 32 -",
    "mac_length_past_limit": "mac 3 sha256 256 -",
    "verify_slot_past_limit": "verify 256 sha256 00 -",
    "seal_slot_past_limit": "seal 256 16 - -",
    "seal_length_past_limit": "seal 1 256 - -",
    "sealiv_slot_past_limit": "sealiv 256 16 00 - -",
    "sealiv_length_past_limit": "sealiv 1 256 00 - -",
    "open_slot_past_limit": "open 256 00 - - 00",
    "wrap_kek_past_limit": "wrap 256 1",
    "wrap_slot_past_limit": "wrap 0 256",
    "wrappad_kek_past_limit": "wrappad 256 1",
    "wrappad_slot_past_limit": "wrappad 0 256",
    "unwrap_kek_past_limit": "unwrap 256 1 mac keep 1 00",
    "unwrap_slot_past_limit": "unwrap 0 256 mac keep 1 00",
    "unwrap_uses_past_limit": "unwrap 0 1 mac keep 4294967296 00",
    "unwrappad_kek_past_limit": "unwrappad 256 1 mac keep 1 00",
    "unwrappad_slot_past_limit": "unwrappad 0 256 mac keep 1 00",
    "unwrappad_uses_past_limit": "unwrappad 0 1 mac keep 4294967296 00",
    "derive_source_past_limit": "derive 256 1 mac keep 1 32 - -",
    "derive_slot_past_limit": "derive 0 256 mac keep 1 32 - -",
    "derive_uses_past_limit": "derive 0 1 mac keep 4294967296 32 - -",
    "derive_length_past_limit": "derive 0 1 mac keep 1 256 - -",
    "random_length_past_limit": "random 4294967296 -",
}

DIGITS = {
    "digits_one": "bytes 4",
    "digits_odd": "bytes 4a6",
    "digits_with_letter": "bytes 4g",
    "digits_two_dashes": "bytes --",
    "digits_behind_dash": "bytes -4a",
    "digits_before_dash": "bytes 4a-",
    "digits_with_sign": "bytes 0x4a",
    "digits_with_comma": "bytes 4a,4a",
    "digits_odd_in_the_middle": "seal 1 16 616 00",
    "digits_odd_at_the_end": "seal 1 16 61 000",
    "mac_of_256_bytes": line("verify", 3, "sha256", counted(256), b""),
    "sealiv_iv_of_256_bytes": line("sealiv", 1, 16, counted(256), b"", b""),
    "open_iv_of_256_bytes": line("open", 1, counted(256), b"", b"", counted(16)),
    "open_tag_of_256_bytes": line("open", 1, counted(12), b"", b"", counted(256)),
    "label_of_256_bytes": line("derive", 4, 5, "mac", "keep", 1, 32, counted(256), b""),
}

SIGNS = {
    "tab_at_end": "step\t",
    "tab_in_front": "\tstep",
    "tab_for_space": "wrap 0\t1",
    "return_at_end": "step\r",
    "return_alone": "\r",
    "return_for_space": "role\ruser",
    "nul_at_end": "step\0",
    "nul_alone": "\0",
    "nul_in_number": "slot 1\0",
    "delete_at_end": "step\x7f",
    "high_byte": b"step\xff",
    "high_digit": b"slot \xb2",
    "no_break_space": "slot\u00a01",
    "note_behind": "step # a note",
    "note_in_word": "step#",
}

NAMES = {
    "name_unknown": "frob",
    "name_capital": "Step",
    "name_capitals": "STEP",
    "name_longer": "steps",
    "name_shorter": "ste",
    "name_spelled_otherwise": "zeroize 1",
    "name_of_service": "selectrole user",
    "name_of_program": "serve image digest noise",
    "name_of_vector": "sha256 616263 00",
    "role_unknown": "role crypto",
    "role_capital": "role User",
    "role_number": "role 1",
    "role_longer": "role users",
    "kind_unknown": "begin 3 hmac other keep 1 32",
    "kind_number": "begin 3 3 other keep 1 32",
    "domain_unknown": "begin 3 mac none keep 1 32",
    "domain_number": "begin 3 mac 0 keep 1 32",
    "domain_for_export": "begin 3 mac keep other 1 32",
    "domain_in_unwrap": "unwrap 0 1 mac approved 5 00",
    "export_number": "generate 3 mac other 0 1 32",
    "export_capital": "derive 0 1 mac Keep 1 32 - -",
    "alg_unknown": "hash sha1 00",
    "alg_capitals": "mac 3 SHA256 32 00",
    "alg_number": "hash 1 00",
    "alg_with_dash": "verify 3 sha-256 00 00",
    "words_exchanged": "mac sha256 3 32 00",
}

# A body of 65,601 bytes, by its text and by each part that is counted beside it, and lines past the limit.
BODIES = {
    "body_of_hash": line("hash", "sha256", bytes(65_600)),
    "body_of_verify": line("verify", 3, "sha256", b"m", bytes(65_597)),
    "body_of_seal": line("seal", 1, 16, bytes(32_768), bytes(32_827)),
    "body_of_sealiv": line("sealiv", 1, 16, b"i", bytes(65_592), b"t"),
    "body_of_open": line("open", 1, b"i", b"a", bytes(65_580), bytes(12)),
    "body_of_derive": line("derive", 0, 1, "mac", "keep", 1, 32, b"l", bytes(65_590)),
    "body_of_reseed": line("reseed", bytes(65_601)),
    "line_of_131400": "hash sha256 ".ljust(LIMIT, "0"),
    "line_of_131401": "hash sha256 ".ljust(LIMIT + 1, "0"),
    "line_of_many_words": "role user" + " user" * 20_000,
}

ENDS = {
    "third_line": b"poweron 0\n# a note\nfrob\n",
    "first_line": b"frob\nstatus\n",
    "behind_empty_lines": b"\n\n\nfrob\n",
    "line_12": b"# a note\n" * 11 + b"frob\n",
    "bad_line_without_line_feed": b"poweron 0\nfrob",
    "space_without_line_feed": b"poweron 0\n ",
    "number_cut_off": b"poweron 0\nslot",
    "line_of_131400_without_line_feed": "hash sha256 ".ljust(LIMIT, "0").encode(),
    "line_of_131401_without_line_feed": "hash sha256 ".ljust(LIMIT + 1, "0").encode(),
    "note_of_131401": b"status\n" + LONGEST_NOTE + b" \nstatus\n",
    "note_of_131401_without_line_feed": b"status\n" + LONGEST_NOTE + b" ",
    "two_long_notes": LONGEST_NOTE[:65_700] + b"\n" + LONGEST_NOTE[:65_700] + b"\nfrob\n",
}


def after_a_use():
    """What came before a bad line was done, and answered."""
    o = Operator().start()
    o.user()
    o.ask("hash sha256 616263")
    return one(o.words, o.run().inputs[0] + b"hash sha256 61626\nstatus\n", BAD_LINE)


def ended_by(about, streams):
    def run():
        return Run(OPERATE, streams, [BAD_LINE] * len(streams))

    run.__doc__ = about
    return run


def group(about, lines):
    return ended_by(about, [bad(name, text) for name, text in lines.items()])


RUNS = {
    "bad_after_a_use": after_a_use,
    "bad_with_more_words": group("Each service's line with a word more.", MORE_WORDS),
    "bad_with_fewer_words": group("Each service's line with a word less.", FEWER_WORDS),
    "bad_spaces": group("Spaces where none belongs.", SPACES),
    "bad_numbers": group("Numbers in other forms, and past the limit of each field.", NUMBERS),
    "bad_digits": group("Digits that aren't pairs of hex digits, and parts longer than their length can tell.", DIGITS),
    "bad_signs": group("Signs that aren't part of any word.", SIGNS),
    "bad_names": group("Names that no word has, or another one.", NAMES),
    "bad_lengths": group("Bodies of 65,601 bytes, and the longest lines.", BODIES),
    "bad_ends": ended_by("Where a bad line stands, and lines that are too long.", list(ENDS.values())),
}
