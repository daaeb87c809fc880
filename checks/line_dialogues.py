"""Runs of lines that are all of a form: each service once, its limits, and what whole dialogues are answered."""
from line_parts import OPERATE, Operator, Run, Surprise, counted, line, one, padded, sealed, turned, wrapped
from machine_functions import hmac

QUESTION = b"what do ya want for nothing?"
PLAIN_KEK, PLAIN_KEY = counted(16), bytes.fromhex("00112233445566778899aabbccddeeff")
PAD_KEK, PAD_KEY = bytes.fromhex("5840df6e29b02af1ab493b705bf16ea1ae8338f4dcc176a8"), b"ForPasi"
ZERO_IV = bytes(12)
SEALED_ZEROS, TAG_OF_ZEROS = "cea7403d4d606b6e074ec5d3baf39d18", "d0d1c8a799996bf0265b98b5d48ab919"

# A line of each service.
EXAMPLES = [
    "poweron 0",
    "step",
    "tests",
    "status",
    "version",
    "role user",
    "reset",
    "begin 3 mac other keep 100 4",
    "bytes 4a656665",
    "commit 0011223344556677",
    "abort",
    "zeroise 3",
    "zeroiseall",
    "slot 3",
    "zeroisetree 3",
    "hash sha256 616263",
    "mac 3 sha256 32 616263",
    "verify 3 sha256 01020304 616263",
    "seal 1 16 6161 616263",
    "sealiv 1 16 000102 6161 616263",
    "open 1 000102 6161 616263 000102030405060708090a0b",
    "wrap 0 1",
    "unwrap 0 5 mac keep 100 1fa68b0a8112b447aef34bd8fb5a7b829d3e862371d2cfe5",
    "wrappad 0 1",
    "unwrappad 0 5 mac keep 100 afbeb0f07dfbf5419200f2ccb50bb24f",
    "derive 4 5 mac keep 100 32 6c6162656c 636f6e74657874",
    "random 16 -",
    "generate 5 kek approved export 1000000 32",
    "reseed -",
]


def each_line_in_off():
    """A line of each service, in a state that permits two of them; the one that leads out of it comes last."""
    o = Operator()
    for example in EXAMPLES[1:]:
        permitted = example in ("status", "version")
        o.ask(example, "Ok Off" if permitted else "NotInState Off 0 0000 Z -")
    o.ask(EXAMPLES[0], "Ok Init 0 0000 Z -")
    o.ask(EXAMPLES[0], "NotInState Init 0 0000 Z -")
    return o


def each_management_line():
    """Each line of a service that isn't cryptographic, in a state that permits it."""
    o = Operator()
    o.ask("version", "Ok Off 0 0000 53594d4d4f442030312e3030 -")
    o.ask("status", "Ok Off 0 0000 Z -")
    o.ask("poweron 1000000", "Ok Init 0 0000 Z -")
    o.ask("status", "Ok Init 0 0000 00000000000f424000000000 -")
    o.ask("tests", "Ok SelfTest 0 0000 Z -")
    o.ask("step", "Ok SelfTest 0 0000 Z -")
    o.ask("status", "Ok SelfTest 0 0000 03010010000f424000000000 -")
    o.ask("step", "Ok SelfTest")
    o.ask("step", "Ok Approved 0 0000 Z -")
    o.ask("status", "Ok Approved 0 0000 00004010000f424000000000 -")
    for role, state in (("none", "Approved"), ("user", "User"), ("officer", "Officer")):
        o.ask(f"role {role}", f"Ok {state} 0 0000 Z -")
    o.ask("begin 3 mac other keep 100 4", "Ok Entry 0 0000 Z -")
    o.ask("bytes 4a65", "Ok Entry")
    o.ask("bytes 6665", "Ok Entry")
    o.commit(b"Jefe", "Ok Officer 0 0000 Z -")
    o.ask("slot 3", "Ok Officer 0 0000 010300000400000000000064 -")
    o.ask("begin 4 kdf approved export 4294967295 14", "Ok Entry")
    o.ask("abort", "Ok Officer 0 0000 Z -")
    o.ask("slot 4", "Ok Officer 0 0000 Z -")
    o.ask("zeroise 3", "Ok Officer 0 0000 Z -")
    o.ask("slot 3", "Ok Officer 0 0000 Z -")
    o.ask("zeroisetree 3", "Ok Officer 0 0000 Z -")
    o.ask("zeroiseall", "Ok Officer 0 0000 Z -")
    o.ask("tests", "Ok SelfTest 0 0000 Z -")
    o.ask("status", "Ok SelfTest 0 0000 04000000000f424000000000 -")
    o.ask("reset", "Ok Init 0 0000 Z -")
    return o


def with_keys(domain="other"):
    """The slots 0 to 4 are full: a KEK, two AES keys of which the second may be exported, a MAC key and a derivation key."""
    o = Operator().start()
    for slot, kind, export in ((0, "kek", "keep"), (1, "aes", "keep"), (2, "aes", "export"), (3, "mac", "keep"), (4, "kdf", "keep")):
        o.enter(slot, kind, domain=domain, export=export)
    return o


def each_cryptographic_line(domain):
    """Each line of a cryptographic service, in a state that permits it."""
    o, key, indicator = with_keys(domain), counted(32), int(domain == "approved")
    ciphertext, tag = sealed(key, counted(3), b"aa", b"abc", 12)
    o.ask(line("wrap", 0, 2), f"Ok Officer {indicator} 0000 Z {wrapped(key).hex()}")
    o.ask(line("wrappad", 0, 2), f"Ok Officer {indicator} 0000 Z {padded(key).hex()}")
    o.ask(line("unwrap", 0, 5, "mac", "keep", 7, wrapped(key)), f"Ok Officer {indicator} 0000 Z -")
    o.ask(line("unwrappad", 0, 6, "mac", "export", 8, padded(key)), f"Ok Officer {indicator} 0000 Z -")
    o.ask(line("derive", 4, 7, "kdf", "keep", 9, 32, b"label", b"context"), f"Ok Officer {indicator} 0000 Z -")
    o.ask(line("generate", 8, "mac", domain, "keep", 10, 32), f"Ok Officer {indicator} 0000 Z -")
    o.ask("reseed 00ff", "Ok Officer 1 0000 Z -")
    o.ask("random 16 00ff", "Ok Officer 1 0000 Z")
    o.ask("hash sha256 616263", "Ok Officer 1 0000 Z ba7816bf8f01cfea414140de5dae2223b00361a396177a9cb410ff61f20015ad")
    o.show(*range(9))
    o.user()
    o.ask("mac 3 sha256 32 616263", f"Ok User {indicator} 0000 Z {hmac(1, key, b'abc').hex()}")
    o.ask(line("verify", 3, "sha256", hmac(1, key, b"abc")[:5], b"abc"), f"Ok User {indicator} 0000 Z -")
    o.ask(line("verify", 3, "sha256", hmac(1, key, b"abc")[:5], b"abd"), "AuthFailed User 0 0000 Z -")
    o.ask("seal 1 13 6161 616263", f"Ok User {indicator} 0000 Z")
    if domain == "other":
        o.ask("sealiv 1 12 000102 6161 616263", f"Ok User 0 0000 Z {(ciphertext + tag).hex()}")
    else:
        o.ask("sealiv 1 12 000102 6161 616263", "WrongDomain User 0 0000 Z -")
    o.ask(line("open", 1, counted(3), b"aa", ciphertext, tag), f"Ok User {indicator} 0000 Z 616263")
    o.ask(line("derive", 4, 9, "mac", "export", 1, 14, b"", b""), f"Ok User {indicator} 0000 Z -")
    for slot in (5, 6, 7, 8, 9):
        kept = "WrongKind" if slot == 7 else "Ok"
        o.ask(f"mac {slot} sha256 8 -", kept)
    return o


def names():
    """Each role, kind, domain, export flag and hash by its name."""
    o = Operator().start()
    for kind in ("aes", "kek", "mac", "kdf"):
        for domain in ("other", "approved"):
            for export in ("keep", "export"):
                o.begin(5, kind, domain, export, 1, 32)
                o.ask("abort")
    for slot, kind in enumerate(("aes", "kek", "mac", "kdf")):
        o.ask(f"generate {slot} {kind} {('other', 'approved')[slot % 2]} {('keep', 'export')[slot // 2]} {slot + 20} 32")
    for slot, kind in enumerate(("aes", "kek", "mac", "kdf"), 4):
        o.ask(f"derive 3 {slot} {kind} {('keep', 'export')[slot % 2]} {slot + 1} 32 - -")
    for slot, kind in enumerate(("aes", "kek", "mac", "kdf"), 8):
        o.ask(f"unwrap 1 {slot} {kind} {('keep', 'export')[slot % 2]} {slot + 1} {'00' * 40}", "UnwrapFailed")
        o.ask(f"unwrappad 1 {slot} {kind} {('keep', 'export')[slot % 2]} {slot + 1} {'00' * 40}", "UnwrapFailed")
    o.show(*range(12))
    for role, state in (("none", "Approved"), ("officer", "Officer"), ("user", "User"), ("user", "User")):
        o.ask(f"role {role}", f"Ok {state}")
    for alg, length in (("sha256", 32), ("sha384", 48), ("sha512", 64)):
        o.ask(f"hash {alg} 616263", "Ok User 1 0000 Z")
        o.ask(f"mac 2 {alg} {length} 616263", "Ok User 0 0000 Z")
        o.ask(f"verify 2 {alg} {'00' * length} 616263", "AuthFailed")
    return o


def no_bytes():
    """`-` in the place of each word of hex digits: none of them is no bytes only where a form wants some."""
    o = with_keys()
    tag_of_nothing = sealed(counted(32), b"i", b"", b"")[1]
    for bad in ("unwrap 0 5 mac keep 1 -", "unwrappad 0 5 mac keep 1 -"):
        o.ask(bad, "BadBody Officer 0 0000 Z -")
    o.ask("reseed -")
    o.ask("random 1 -")
    o.ask("derive 4 5 mac keep 1 32 - 63")
    o.ask("derive 4 6 mac keep 1 32 6c -")
    o.begin(7, "mac")
    o.ask("bytes -", "BadBody Entry 0 0000 Z -")
    o.ask("commit -", "BadBody Entry 0 0000 Z -")
    o.ask("abort")
    o.user()
    o.ask("hash sha256 -", "Ok User 1 0000 Z e3b0c44298fc1c149afbf4c8996fb92427ae41e4649b934ca495991b7852b855")
    o.ask("mac 3 sha256 32 -")
    o.ask("mac 5 sha256 32 -")
    o.ask("mac 6 sha256 32 -")
    o.ask("verify 3 sha256 - -", "BadBody User 0 0000 Z -")
    o.ask("verify 3 sha256 - 00", "BadBody User 0 0000 Z -")
    o.ask("seal 1 16 - -")
    o.ask("seal 1 16 00 -")
    o.ask("seal 1 16 - 00")
    o.ask("sealiv 1 16 - - 00", "BadBody User 0 0000 Z -")
    o.ask("sealiv 1 16 69 - -", f"Ok User 0 0000 Z {tag_of_nothing.hex()}")
    o.ask(line("open", 1, b"i", b"", b"", tag_of_nothing), "Ok User 0 0000 Z -")
    o.ask(line("open", 1, b"", b"", b"", tag_of_nothing), "BadBody User 0 0000 Z -")
    o.ask("open 1 69 - 00 -", "BadBody User 0 0000 Z -")
    return o


def largest_numbers():
    """Numbers at the limit of their fields: a body rule refuses them where it is narrower, and the line is of a form all the same."""
    o = Operator()
    for period in (1_000_001, 4_294_967_295):
        o.ask(f"poweron {period}", "BadBody Off 0 0000 Z -")
    o.start(1_000_000)
    o.officer()
    for slot in (16, 255):
        for bad in ("begin {} mac other keep 1 32", "zeroise {}", "slot {}", "zeroisetree {}", "wrap {} 0", "wrap 0 {}", "wrappad {} 0"):
            o.ask(bad.format(slot), "BadBody Officer 0 0000 Z -")
        for bad in ("unwrap {} 0 mac keep 1 ", "unwrap 0 {} mac keep 1 ", "unwrappad {} 0 mac keep 1 ", "unwrappad 0 {} mac keep 1 "):
            o.ask(bad.format(slot) + "00" * 24, "BadBody Officer 0 0000 Z -")
        for bad in ("derive {} 0 mac keep 1 32 - -", "derive 0 {} mac keep 1 32 - -", "generate {} mac other keep 1 32"):
            o.ask(bad.format(slot), "BadBody Officer 0 0000 Z -")
    for bad in ("begin 15 mac other keep {} 32", "generate 15 mac other keep {} 32", "derive 0 1 mac keep {} 32 - -"):
        o.ask(bad.format(0), "BadBody Officer 0 0000 Z -")
    for length in (0, 65, 255):
        for bad in ("begin 15 mac other keep 1 {}", "generate 15 mac other keep 1 {}", "derive 0 1 mac keep 1 {} - -"):
            o.ask(bad.format(length), "BadBody Officer 0 0000 Z -")
    for length in (0, 65_537, 4_294_967_295):
        o.ask(f"random {length} -", "BadBody Officer 0 0000 Z -")
    o.ask("generate 15 mac other keep 4294967295 64")
    o.ask("slot 15", "Ok Officer 0 0000 0103000040000000ffffffff -")
    o.user()
    for bad in ("mac {} sha256 32 -", "verify {} sha256 00 -", "seal {} 16 - -", "sealiv {} 16 00 - -", "open {} 00 - - " + "00" * 16):
        for slot in (16, 255):
            o.ask(bad.format(slot), "BadBody User 0 0000 Z -")
        o.ask(bad.format(14), "EmptySlot User 0 0000 Z -")
    for bad, lengths in (("mac 15 sha256 {} -", (0, 33, 255)), ("seal 15 {} - -", (0, 11, 17, 255)), ("sealiv 15 {} 00 - -", (0, 11, 17, 255))):
        for length in lengths:
            o.ask(bad.format(length), "BadBody User 0 0000 Z -")
    o.ask("mac 15 sha512 64 -")
    return o


def longest_parts():
    """Parts of 255 bytes, which is as much as their lengths can tell, and a context that is longer than its body may have."""
    o = with_keys()
    o.ask(line("derive", 4, 5, "mac", "keep", 1, 32, counted(255), counted(255)))
    o.ask(line("derive", 4, 6, "mac", "keep", 1, 32, counted(255), counted(256)), "BadBody Officer 0 0000 Z -")
    o.ask(line("reseed", counted(256)))
    o.ask(line("reseed", counted(257)), "BadBody Officer 0 0000 Z -")
    o.ask(line("random", 1, counted(256)))
    o.ask(line("random", 1, counted(257)), "BadBody Officer 0 0000 Z -")
    o.begin(8, "mac", length=64)
    o.ask(line("bytes", counted(65)), "BadBody Entry 0 0000 Z -")
    o.ask(line("bytes", counted(64)))
    o.ask(line("commit", counted(7)), "BadBody Entry 0 0000 Z -")
    o.ask(line("commit", counted(9)), "BadBody Entry 0 0000 Z -")
    o.commit(counted(64))
    o.user()
    o.ask("mac 5 sha256 32 -")
    o.ask(line("verify", 3, "sha512", counted(64), b""), "AuthFailed User 0 0000 Z -")
    for length in (65, 255):
        o.ask(line("verify", 3, "sha512", counted(length), b""), "BadBody User 0 0000 Z -")
    o.ask(line("sealiv", 1, 16, counted(255), b"aad", b"text"))
    ciphertext, tag = sealed(counted(32), counted(255), b"aad", b"text")
    o.ask(line("open", 1, counted(255), b"aad", ciphertext, tag), "Ok User 0 0000 Z 74657874")
    for length in (11, 17, 255):
        o.ask(line("open", 1, counted(255), b"aad", ciphertext, counted(length)), "BadBody User 0 0000 Z -")
    return o


def upper_case():
    """Digits of either case, and both in one byte."""
    o = Operator().start()
    o.begin(3, "mac", length=4)
    o.ask("bytes 4A65")
    o.ask("bytes 6f6F", "Ok Entry")
    o.commit(b"Jeoo")
    o.user()
    o.ask("hash sha256 AaBbCcDdEeFf0123456789")
    o.ask("hash sha256 aabbccddeeff0123456789")
    o.ask(line("verify", 3, "sha256", hmac(1, b"Jeoo", b"\xab")[:8]).upper().replace("VERIFY", "verify").replace("SHA", "sha") + " aB")
    return o


# Dialogues.


def a_mac():
    """A key of four bytes is none of domain approved; in domain other its MAC is a published one."""
    o = Operator().start()
    o.officer()
    o.ask("begin 3 mac approved keep 100 4", "BadBody Officer 0 0000 Z -")
    o.begin(3, "mac", length=4)
    o.ask("bytes 4a656665")
    o.commit(b"Jefe", "Ok Officer 0 0000 Z -")
    o.user()
    mac = "5bdcc146bf60754e6a042426089575c75a003f089d2739839dec58b964ec3843"
    o.ask(line("mac", 3, "sha256", 32, QUESTION), f"Ok User 0 0000 Z {mac}")
    return o


def a_sealing(domain):
    """A published ciphertext under an IV that the line names, which an approved key isn't used for; then a wrong tag."""
    o = Operator().start()
    o.enter(2, "aes", bytes(32), domain, uses=5)
    o.user()
    sealing = line("sealiv", 2, 16, ZERO_IV, b"", bytes(16))
    opening = line("open", 2, ZERO_IV, b"", bytes.fromhex(SEALED_ZEROS))
    if domain == "approved":
        o.ask(sealing, "WrongDomain User 0 0000 Z -")
        o.ask("slot 2", "Ok User 0 0000 010101002000000000000005 -")
        return o
    o.ask(sealing, f"Ok User 0 0000 Z {SEALED_ZEROS}{TAG_OF_ZEROS}")
    o.ask(f"{opening} {turned(bytes.fromhex(TAG_OF_ZEROS)).hex()}", "AuthFailed User 0 0000 Z -")
    o.ask("slot 2", "Ok User 0 0000 010100002000000000000003 -")
    o.ask(f"{opening} {TAG_OF_ZEROS}", f"Ok User 0 0000 Z {'00' * 16}")
    return o


def a_wrapping(export):
    """A published wrapping; the second slot's flag is looked at once the KEK's use is spent. A slot isn't wrapped under itself."""
    o = Operator().start()
    o.enter(0, "kek", PLAIN_KEK, uses=9)
    o.enter(1, "aes", PLAIN_KEY, export=export)
    if export == "export":
        o.ask("wrap 0 1", "Ok Officer 0 0000 Z 1fa68b0a8112b447aef34bd8fb5a7b829d3e862371d2cfe5")
    else:
        o.ask("wrap 0 1", "NotExportable Officer 0 0000 Z -")
    o.ask("slot 0", "Ok Officer 0 0000 010200001000000000000008 -")
    o.ask("wrap 0 0", "BadBody Officer 0 0000 Z -")
    o.ask("unwrap 0 1 aes keep 5 1fa68b0a8112b447aef34bd8fb5a7b829d3e862371d2cfe5", "OccupiedSlot Officer 0 0000 Z -")
    o.show(0, 1)
    o.ask("unwrap 0 2 aes keep 5 1fa68b0a8112b447aef34bd8fb5a7b829d3e862371d2cfe5")
    o.ask("unwrap 0 3 aes keep 5 1fa68b0a8112b447aef34bd8fb5a7b829d3e862371d2cfe4", "UnwrapFailed Officer 0 0000 Z -")
    o.show(2, 3)
    return o


def a_padded_wrapping():
    """A published wrapping with padding. What it opens to has to fit the kind that the line names."""
    o = Operator().start()
    o.enter(0, "kek", PAD_KEK)
    o.enter(1, "mac", PAD_KEY, export="export")
    o.ask("wrappad 0 1", "Ok Officer 0 0000 Z afbeb0f07dfbf5419200f2ccb50bb24f")
    o.ask("wrap 0 1", "BadLength Officer 0 0000 Z -")
    o.ask("unwrappad 0 5 mac keep 10 afbeb0f07dfbf5419200f2ccb50bb24f", "Ok Officer 0 0000 Z -")
    o.ask("slot 5", "Ok Officer 0 0000 01030000070000000000000a -")
    o.ask("unwrappad 0 6 aes keep 10 afbeb0f07dfbf5419200f2ccb50bb24f", "BadLength Officer 0 0000 Z -")
    o.ask("slot 6", "Ok Officer 0 0000 Z -")
    o.enter(7, "kek", PAD_KEK, "approved")
    o.ask("unwrappad 7 6 mac keep 10 afbeb0f07dfbf5419200f2ccb50bb24f", "BadLength Officer 0 0000 Z -")
    o.ask("slot 6", "Ok Officer 0 0000 Z -")
    o.ask("wrappad 7 1", "WrongDomain Officer 0 0000 Z -")
    return o


def uses():
    """The last use of a key, and uses for a MAC that is too short for an approved key, which spend none."""
    o = Operator().start()
    o.enter(2, "mac", uses=1)
    o.enter(3, "mac", counted(14), "approved", uses=1)
    o.user()
    o.ask("mac 2 sha256 32 -", "Ok User 0 0000 Z")
    o.ask("mac 2 sha256 32 -", "Spent User 0 0000 Z -")
    o.ask("slot 2", "Ok User 0 0000 010300002000000000000000 -")
    o.ask("mac 3 sha256 3 -", "WrongDomain User 0 0000 Z -")
    o.ask("mac 3 sha256 4 -", f"Ok User 1 0000 Z {hmac(1, counted(14), b'')[:4].hex()}")
    o.ask("mac 3 sha256 3 -", "WrongDomain User 0 0000 Z -")
    o.ask("mac 3 sha256 4 -", "Spent User 0 0000 Z -")
    o.ask("mac 9 sha256 4 -", "EmptySlot User 0 0000 Z -")
    o.ask("seal 3 16 - -", "WrongKind User 0 0000 Z -")
    return o


def entries():
    """Entries that are committed onto a full slot, with a wrong check, a byte too few, and after a piece that is too long."""
    o, key = Operator().start(), counted(32)
    o.enter(1, "mac", key)
    o.begin(1, "mac")
    o.ask(line("bytes", key))
    o.commit(key, "OccupiedSlot Officer 0 0000 Z -")
    o.begin(2, "mac")
    o.ask(line("bytes", key))
    o.commit(turned(key), "CheckFailed Officer 0 0000 Z -")
    o.ask("slot 2", "Ok Officer 0 0000 Z -")
    o.begin(2, "mac")
    o.ask(line("bytes", key[:31]))
    o.commit(key, "BadLength Officer 0 0000 Z -")
    o.ask("slot 2", "Ok Officer 0 0000 Z -")
    o.begin(2, "mac")
    o.ask(line("bytes", key))
    o.ask("bytes 20", "BadLength Entry 0 0000 Z -")
    o.commit(key, "Ok Officer 0 0000 Z -")
    o.ask("slot 2", "Ok Officer 0 0000 010300002000000000000064 -")
    return o


def noise_faults(noise, code):
    """Noise that ends, or that fails a health test. Only a reset leads out of Error."""
    o = Operator(noise=noise).power_on()
    o.step("Ok", "Ok", f"NoiseFault Error 0 {code} Z -")
    o.ask("role user", f"NotInState Error 0 {code} Z -")
    o.ask("status", f"Ok Error 0 {code} 000040100000000000000000 -")
    o.ask("reset", "Ok Init 0 0000 Z -")
    o.ask("status", "Ok Init 0 0000 Z -")
    return o


def exactly_enough_noise():
    """A pass of the tests takes 1,408 bytes of noise, and then there is none left for a reseed."""
    o = Operator(noise="noise_of_1408").start()
    o.officer()
    o.ask("random 4 -", "Ok Officer 1")
    o.ask("reseed -", "NoiseFault Error 0 0300 Z -")
    return o


def image_differs():
    """An image that isn't the digest's."""
    o = Operator(image="image_changed").power_on()
    o.step("Ok", "TestFailed Error 0 0200 Z -")
    o.ask("step", "NotInState Error 0 0200 Z -")
    o.ask("status", "Ok Error 0 0200 000000100000000000000000 -")
    o.ask("reset", "Ok Init 0 0000 Z -")
    return o


def digest_of_either_case():
    """A digest in upper case, without a line feed."""
    return Operator(digest="digest_in_upper_case").start()


def empty_image():
    """An image without bytes, and a digest without a line feed."""
    return Operator("image_of_nothing", "digest_of_nothing").start()


def world(key):
    o = Operator().start()
    o.enter(3, "mac", key)
    o.enter(4, "kdf", key)
    o.enter(1, "aes")
    o.user()
    told = [o.ask("mac 3 sha256 32 616263")]
    o.ask("derive 4 5 mac keep 10 32 - -")
    told.append(o.ask("mac 5 sha256 32 616263"))
    o.officer()
    for slot in (3, 4, 5):
        o.ask(f"zeroise {slot}")
    o.user()
    same = [o.ask("random 32 -"), o.ask("seal 1 16 616263 616263")]
    return o, told, same


def world_of(index):
    """One of two worlds that differ in the bytes of two entries: what is made from these differs, and nothing else once they are gone."""
    (here, told, same), (there, told_there, same_there) = world(counted(32)), world(bytes(32))
    if same != same_there or set(told) & set(told_there):
        raise Surprise("the two worlds")
    return (here, there)[index]


def random_bytes():
    """As many bytes at once as can be had, and one more."""
    o = Operator().start()
    o.user()
    o.ask("random 65536 -", "Ok User 1 0000 Z")
    o.ask("random 65537 -", "BadBody User 0 0000 Z -")
    o.ask("random 1 -")
    return o


def draws(noise):
    """1,024 draws take no noise. The next takes 256 bytes of it: there are just as many, or one too few."""
    o = Operator(noise=noise).start()
    o.user()
    for _ in range(1_024):
        o.ask("random 1 -")
    if noise == "noise_of_1664":
        o.ask("random 1 -")
        o.officer()
        o.ask("reseed -", "NoiseFault Error 0 0300 Z -")
    else:
        o.ask("random 1 -", "NoiseFault Error 0 0300 Z -")
    return o


def period():
    """The last use of a period gives its payload, and the tests are due. The role and the slots are kept over them."""
    o = Operator().start(3)
    o.enter(2, "mac")
    o.user()
    abc = "ba7816bf8f01cfea414140de5dae2223b00361a396177a9cb410ff61f20015ad"
    o.ask("hash sha256 616263", f"Ok User 1 0000 Z {abc}")
    o.ask("mac 9 sha256 32 -", "EmptySlot User 0 0000 Z -")
    o.ask("status", "Ok User 0 0000 000040120000000300000002 -")
    o.ask("hash sha256 616263", f"Ok SelfTest 1 0000 Z {abc}")
    o.ask("status", "Ok SelfTest 0 0000 050000000000000300000000 -")
    o.ask("hash sha256 616263", "NotInState SelfTest 0 0000 Z -")
    o.step("Ok SelfTest", "Ok SelfTest", "Ok User")
    o.ask("slot 2", "Ok User 0 0000 010300002000000000000064 -")
    return o


def approved_life():
    """A key that comes in wrapped, seals and opens in domain approved, and goes with all others."""
    o, aad, text = Operator().start(), counted(20), counted(4_096)
    o.enter(0, "kek", domain="approved")
    o.ask(line("unwrap", 0, 1, "aes", "keep", 4_294_967_295, wrapped(counted(32))), "Ok Officer 1 0000 Z -")
    o.user()
    answer = bytes.fromhex(o.ask(line("seal", 1, 16, aad, text), "Ok User 1 0000 Z"))
    if len(answer) != 4_124:
        raise Surprise("the length of what is sealed")
    o.ask(line("open", 1, answer[:12], aad, answer[12:-16], answer[-16:]), f"Ok User 1 0000 Z {text.hex()}")
    o.officer()
    o.ask("zeroiseall", "Ok Officer 0 0000 Z -")
    o.ask("slot 0", "Ok Officer 0 0000 Z -")
    return o


def tree(*before):
    """A key, two made from it in turn and one by itself: all but the last go with the first, also where the middle one is gone."""
    o = Operator().start()
    o.enter(3, "kdf", domain="approved", uses=20)
    o.enter(6, "mac")
    o.ask("derive 3 4 kdf keep 9 32 - -", "Ok Officer 1 0000 Z -")
    o.ask("derive 4 5 mac keep 9 32 - -", "Ok Officer 1 0000 Z -")
    for each in before:
        o.ask(each)
        o.ask("slot 5", "Ok Officer 0 0000 010301002000000000000009 -")
    o.ask("zeroisetree 3", "Ok Officer 0 0000 Z -")
    for slot in (3, 4, 5):
        o.ask(f"slot {slot}", "Ok Officer 0 0000 Z -")
    o.ask("slot 6", "Ok Officer 0 0000 010300002000000000000064 -")
    o.user()
    o.ask("zeroisetree 6", "NotInState User 0 0000 Z -")
    return o


# Bodies and lines of the largest lengths.


def largest_hash():
    """The longest text, of 65,599 bytes; and after that a line goes on as before."""
    o = Operator().start()
    o.user()
    o.ask(line("hash", "sha256", bytes(65_599)))
    o.ask("hash sha256 -")
    return o


def largest_sealing():
    """The longest text that is sealed: its reply is the longest that there is."""
    o = Operator().start()
    o.enter(1, "aes")
    o.user()
    answer = o.ask(line("seal", 1, 16, b"", bytes(65_594)))
    if len(answer) != 2 * 65_622:
        raise Surprise("the length of what is sealed")
    o.ask("slot 1", "Ok User 0 0000 010100002000000000000063 -")
    return o


def largest_bodies_in_off():
    """Bodies of 65,600 bytes, in a state that doesn't permit their services."""
    o = Operator()
    for longest in (
        line("bytes", bytes(65_600)),
        line("verify", 3, "sha256", b"m", bytes(65_596)),
        line("seal", 1, 16, bytes(32_768), bytes(32_826)),
        line("sealiv", 1, 16, b"i", bytes(65_591), b"t"),
        line("open", 1, b"i", b"a", bytes(65_579), bytes(12)),
        line("derive", 0, 1, "mac", "keep", 1, 32, b"l", bytes(65_589)),
        line("reseed", bytes(65_600)),
    ):
        o.ask(longest, "NotInState Off 0 0000 Z -")
    o.ask("status")
    return o


# Comments, and the end of an input.

LONGEST_NOTE = b"#".ljust(131_400, b" ")


def commented():
    """Comments make no command, wherever they stand."""
    o = Operator()
    for note in ("# a note", "", "#", "#step", "##", "# step\r", "#\0\t\xff", "#" * 3_000):
        o.note(note)
        o.ask("status")
    o.note("# the last")
    return o


def input_ends():
    """Inputs that are empty, of comments alone or of the longest comments, and last lines without their LF, which count."""
    streams = [
        b"",
        b"\n\n\n",
        b"# one\n# two",
        b"poweron 5\nstatus",
        b"poweron 5\n\nstatus\n#",
        LONGEST_NOTE + b"\nstatus\n",
        b"status\n" + LONGEST_NOTE,
    ]
    return Run(OPERATE, streams, [0] * len(streams))


def operated(of, *arguments):
    """A run of an operator's lines, and what it is about."""

    def run():
        made = of(*arguments)
        return made.run() if isinstance(made, Operator) else made

    run.__doc__ = of.__doc__
    return run


def noise_of_thirty_and_two():
    """A sample thirty times in a row is sound."""
    return Operator(noise="noise_of_thirty_and_two").start()


RUNS = {
    "each_line_in_off": operated(each_line_in_off),
    "each_management_line": operated(each_management_line),
    "each_cryptographic_line": operated(each_cryptographic_line, "other"),
    "each_approved_line": operated(each_cryptographic_line, "approved"),
    "names": operated(names),
    "no_bytes": operated(no_bytes),
    "largest_numbers": operated(largest_numbers),
    "longest_parts": operated(longest_parts),
    "upper_case": operated(upper_case),
    "a_mac": operated(a_mac),
    "a_sealing": operated(a_sealing, "other"),
    "an_approved_sealing": operated(a_sealing, "approved"),
    "a_wrapping": operated(a_wrapping, "export"),
    "a_kept_wrapping": operated(a_wrapping, "keep"),
    "a_padded_wrapping": operated(a_padded_wrapping),
    "uses": operated(uses),
    "entries": operated(entries),
    "noise_that_repeats": operated(noise_faults, "noise_of_zeros", "0500"),
    "noise_out_of_proportion": operated(noise_faults, "noise_of_thirty_zeros", "0600"),
    "noise_that_ends": operated(noise_faults, "noise_of_1000", "0300"),
    "noise_that_ends_late": operated(noise_faults, "noise_of_1407", "0300"),
    "noise_that_nearly_repeats": operated(noise_of_thirty_and_two),
    "exactly_enough_noise": operated(exactly_enough_noise),
    "image_differs": operated(image_differs),
    "digest_of_either_case": operated(digest_of_either_case),
    "empty_image": operated(empty_image),
    "one_world": operated(world_of, 0),
    "other_world": operated(world_of, 1),
    "random_bytes": operated(random_bytes),
    "draws_with_noise": operated(draws, "noise_of_1664"),
    "draws_without_noise": operated(draws, "noise_of_1663"),
    "period": operated(period),
    "approved_life": operated(approved_life),
    "tree": operated(tree),
    "tree_without_its_middle": operated(tree, "zeroise 4"),
    "largest_hash": operated(largest_hash),
    "largest_sealing": operated(largest_sealing),
    "largest_bodies_in_off": operated(largest_bodies_in_off),
    "commented": operated(commented),
    "input_ends": operated(input_ends),
}
