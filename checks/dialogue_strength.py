#!/usr/bin/env python3
"""Whether the stored dialogues tell the model from models with one mistake: each is to answer at least one dialogue otherwise.

    python3 checks/dialogue_strength.py     tries every mistake; says which are told by no dialogue, and fails where one isn't
"""
import os
import subprocess
import sys
import tempfile

import dialogue
import stored_files

HERE = os.path.dirname(os.path.abspath(__file__))
MODEL, FORMS, FUNCTIONS = "machine.py", "machine_bodies.py", "machine_functions.py"

# The name of a mistake, and the text of the model that it exchanges.
MISTAKES = [
    ("the number is looked at last", MODEL, "            self.take_number(sequence)\n            service = self.permitted(number)\n", "            service = self.permitted(number)\n            self.take_number(sequence)\n"),
    ("a refused number counts", MODEL, "        if sequence != self.next:\n", "        if sequence != self.next:\n            self.next += 1\n"),
    ("reset begins the numbers anew", MODEL, "        self.state = State.INIT\n        self.forget()", "        self.state = State.INIT\n        self.next = 1\n        self.forget()"),
    ("the state is looked at before the number of the service", MODEL, "        refuse_where(number not in list(Service), Status.UNKNOWN_SERVICE)\n", "        refuse_where(number not in list(Service), Status.NOT_IN_STATE)\n"),
    ("a bad body counts", MODEL, "            request = self.read(service, content)\n", "            self.count += int(is_cryptographic(service) and self.period > 0)\n            request = self.read(service, content)\n            self.count -= int(is_cryptographic(service) and self.period > 0)\n"),
    ("a use counts without a period", MODEL, "        if self.period:\n            self.count += 1\n", "        self.count += 1\n"),
    ("the first test comes after the draw", MODEL, "        self.test(test_of(service, request))\n        drawn = self.drawn(service, request)\n", "        drawn = self.drawn(service, request)\n        self.test(test_of(service, request))\n"),
    ("the first test is made only where a source is there", MODEL, "        self.test(test_of(service, request))\n        drawn", "        if service not in SOURCE_KINDS or self.slots[source_of(request)]:\n            self.test(test_of(service, request))\n        drawn"),
    ("seal makes the test of open", MODEL, "    Service.SEAL: 7,", "    Service.SEAL: 8,"),
    ("unwrap makes the test of wrap", MODEL, "    Service.UNWRAP: 10,", "    Service.UNWRAP: 9,"),
    ("a MAC makes the test of SHA-256's", MODEL, "        return 3 + request.alg\n", "        return 4\n"),
    ("seal draws only where its slot is full", MODEL, "        if service == Service.SEAL:\n", "        if service == Service.SEAL and self.slots[request.slot]:\n"),
    ("generate draws only where its slot is empty", MODEL, "        if service == Service.GENERATE:\n", "        if service == Service.GENERATE and not self.slots[request.target]:\n"),
    ("seal draws after its slot", MODEL, "        drawn = self.drawn(service, request)\n        if service in (Service.DERIVE", "        drawn = b'' if service == Service.SEAL else self.drawn(service, request)\n        if service == Service.SEAL:\n            source = self.source(service, request)\n            return ANSWERS[service](self, request, source, self.drawn(service, request))\n        if service in (Service.DERIVE"),
    ("a draw reseeds one draw early", MODEL, "self.generator.counter > RESEED_INTERVAL", "self.generator.counter >= RESEED_INTERVAL"),
    ("a draw reseeds one draw late", MODEL, "self.generator.counter > RESEED_INTERVAL", "self.generator.counter > RESEED_INTERVAL + 1"),
    ("the reseed of a draw takes the additional input too", MODEL, "self.engine.reseed(self.take(ENTROPY), b\"\", self.generator)", "self.engine.reseed(self.take(ENTROPY), additional, self.generator)"),
    ("random passes no additional input", MODEL, "self.draw(request.length, request.additional)", "self.draw(request.length)"),
    ("reseed passes no additional input", MODEL, "self.take(ENTROPY), request.additional, self.generator)", "self.take(ENTROPY), b\"\", self.generator)"),
    ("a reseed takes half its entropy", MODEL, "STARTUP, ENTROPY, NONCE = 1_024, 256, 128", "STARTUP, ENTROPY, NONCE = 1_024, 128, 128"),
    ("the start takes no nonce", MODEL, "STARTUP, ENTROPY, NONCE = 1_024, 256, 128", "STARTUP, ENTROPY, NONCE = 1_024, 256, 0"),
    ("noise that ended is noise that failed", MODEL, "NOISE_ENDED, NOISE_FAILED, REPEATED, OUT_OF_PROPORTION = 0x0200, 0x0300, 0x0400", "NOISE_ENDED, NOISE_FAILED, REPEATED, OUT_OF_PROPORTION = 0x0200, 0x0400, 0x0300"),
    ("a target is linked only where it is empty", MODEL, "        if service in (Service.DERIVE, Service.UNWRAP, Service.UNWRAP_PAD):\n", "        if service in (Service.DERIVE, Service.UNWRAP, Service.UNWRAP_PAD) and not self.slots[request.target]:\n"),
    ("a target is linked after the slots are looked at", MODEL, "            self.link(source_of(request), request.target)\n        source = self.source(service, request)\n        self.look_at_second(service, request, source)\n", "            source = self.source(service, request)\n            self.look_at_second(service, request, source)\n            self.link(source_of(request), request.target)\n            return ANSWERS[service](self, request, source, drawn)\n        source = self.source(service, request)\n        self.look_at_second(service, request, source)\n"),
    ("a target is linked after the source is looked at", MODEL, "            self.link(source_of(request), request.target)\n        source = self.source(service, request)\n", "            source = self.source(service, request)\n            self.link(source_of(request), request.target)\n        else:\n            source = self.source(service, request)\n"),
    ("unwrap links nothing", MODEL, "(Service.DERIVE, Service.UNWRAP, Service.UNWRAP_PAD):", "(Service.DERIVE, Service.UNWRAP_PAD):"),
    ("unwrap with padding links nothing", MODEL, "(Service.DERIVE, Service.UNWRAP, Service.UNWRAP_PAD):", "(Service.DERIVE, Service.UNWRAP):"),
    ("a link leaves the source's row", MODEL, "{source} | self.rows[source]", "{source}"),
    ("a link replaces the row", MODEL, "self.rows[target] |= {source}", "self.rows[target] = {source}"),
    ("zeroise keeps the row", MODEL, "self.slots[request.slot], self.rows[request.slot] = None, set()", "self.slots[request.slot] = None"),
    ("zeroise all keeps the rows", MODEL, "        self.empty_all()\n\n    def show_slot", "        self.slots = [None] * 16\n\n    def show_slot"),
    ("a tree is the slot alone", MODEL, "if number == request.slot or request.slot in self.rows[number]]", "if number == request.slot]"),
    ("a tree is all but the slot", MODEL, "if number == request.slot or request.slot in self.rows[number]]", "if request.slot in self.rows[number]]"),
    ("a tree's rows stay", MODEL, "            self.slots[number], self.rows[number] = None, set()", "            self.slots[number] = None"),
    ("entry's commit empties the row", MODEL, "        self.fill(entry.header, entry.header.domain, entry.key)", "        self.fill(entry.header, entry.header.domain, entry.key)\n        self.rows[entry.header.target] = set()"),
    ("the kind is looked at after the domain", MODEL, "        refuse_where(slot.kind != SOURCE_KINDS[service], Status.WRONG_KIND)\n        refuse_where(slot.domain == APPROVED and not is_approved(service, request), Status.WRONG_DOMAIN)\n", "        refuse_where(slot.domain == APPROVED and not is_approved(service, request), Status.WRONG_DOMAIN)\n        refuse_where(slot.kind != SOURCE_KINDS[service], Status.WRONG_KIND)\n"),
    ("the uses are looked at before the domain", MODEL, "        refuse_where(slot.domain == APPROVED and not is_approved(service, request), Status.WRONG_DOMAIN)\n        refuse_where(slot.uses == 0, Status.SPENT)\n", "        refuse_where(slot.uses == 0, Status.SPENT)\n        refuse_where(slot.domain == APPROVED and not is_approved(service, request), Status.WRONG_DOMAIN)\n"),
    ("the uses are looked at before the kind", MODEL, "        refuse_where(slot.kind != SOURCE_KINDS[service], Status.WRONG_KIND)\n", "        refuse_where(slot.uses == 0, Status.SPENT)\n        refuse_where(slot.kind != SOURCE_KINDS[service], Status.WRONG_KIND)\n"),
    ("a use in the wrong domain is spent", MODEL, "        refuse_where(slot.domain == APPROVED and not is_approved(service, request), Status.WRONG_DOMAIN)\n        refuse_where(slot.uses == 0", "        slot.uses -= int(slot.domain == APPROVED and not is_approved(service, request))\n        refuse_where(slot.domain == APPROVED and not is_approved(service, request), Status.WRONG_DOMAIN)\n        refuse_where(slot.uses == 0"),
    ("a use of the wrong kind is spent", MODEL, "        refuse_where(slot.kind != SOURCE_KINDS[service], Status.WRONG_KIND)\n", "        slot.uses -= int(slot.kind != SOURCE_KINDS[service] and slot.uses > 0)\n        refuse_where(slot.kind != SOURCE_KINDS[service], Status.WRONG_KIND)\n"),
    ("no use is spent", MODEL, "        slot.uses -= 1\n        return slot", "        return slot"),
    ("a use is spent only where the second slot is in order", MODEL, "        slot.uses -= 1\n        return slot", "        if hasattr(request, 'second'):\n            self.look_at_second(service, request, slot)\n        slot.uses -= 1\n        return slot"),
    ("a use is spent only where the target is empty", MODEL, "        slot.uses -= 1\n        return slot", "        if hasattr(request, 'target'):\n            self.look_at_second(service, request, slot)\n        slot.uses -= 1\n        return slot"),
    ("a failed open spends nothing", MODEL, "        refuse_where(text is None, Status.AUTH_FAILED)", "        source.uses += int(text is None)\n        refuse_where(text is None, Status.AUTH_FAILED)"),
    ("a failed open gives its bytes", MODEL, "        refuse_where(text is None, Status.AUTH_FAILED)\n        return text", "        return text or request.text"),
    ("a spent slot is emptied", MODEL, "        slot.uses -= 1\n        return slot", "        slot.uses -= 1\n        self.slots[source_of(request)] = slot if slot.uses else None\n        return slot"),
    ("wrap spends its second slot", MODEL, "            length = len(second.key)\n", "            second.uses -= 1\n            length = len(second.key)\n"),
    ("wrap refuses a spent second slot", MODEL, "            length = len(second.key)\n", "            refuse_where(second.uses == 0, Status.SPENT)\n            length = len(second.key)\n"),
    ("the second slot's domain is looked at before its flag", MODEL, "            refuse_where(not second.export, Status.NOT_EXPORTABLE)\n            refuse_where(second.domain != kek.domain, Status.WRONG_DOMAIN)\n", "            refuse_where(second.domain != kek.domain, Status.WRONG_DOMAIN)\n            refuse_where(not second.export, Status.NOT_EXPORTABLE)\n"),
    ("the second slot's length is looked at before its domain", MODEL, "            refuse_where(second.domain != kek.domain, Status.WRONG_DOMAIN)\n            length = len(second.key)\n            refuse_where(service == Service.WRAP and (length < 16 or length % 8 != 0), Status.BAD_LENGTH)\n", "            length = len(second.key)\n            refuse_where(service == Service.WRAP and (length < 16 or length % 8 != 0), Status.BAD_LENGTH)\n            refuse_where(second.domain != kek.domain, Status.WRONG_DOMAIN)\n"),
    ("a slot of another domain is wrapped", MODEL, "            refuse_where(second.domain != kek.domain, Status.WRONG_DOMAIN)\n", ""),
    ("only an approved KEK keeps domains apart", MODEL, "refuse_where(second.domain != kek.domain,", "refuse_where(second.domain < kek.domain,"),
    ("wrap takes 8 bytes", MODEL, "length < 16 or length % 8", "length < 8 or length % 8"),
    ("wrap with padding refuses lengths too", MODEL, "service == Service.WRAP and (length < 16", "(length < 16"),
    ("unwrap fills a full slot", MODEL, "        elif hasattr(request, \"target\"):\n", "        elif hasattr(request, \"target\") and service != Service.UNWRAP:\n"),
    ("derive fills a full slot", MODEL, "        elif hasattr(request, \"target\"):\n", "        elif hasattr(request, \"target\") and service != Service.DERIVE:\n"),
    ("generate fills a full slot", MODEL, "        elif hasattr(request, \"target\"):\n", "        elif hasattr(request, \"target\") and service != Service.GENERATE:\n"),
    ("an opened length is looked at in domain other", MODEL, "fits(request.kind, source.domain, len(key))", "fits(request.kind, 0, len(key))"),
    ("an opened length isn't looked at", MODEL, "        refuse_where(not fits(request.kind, source.domain, len(key)), Status.BAD_LENGTH)\n", ""),
    ("unwrap fills a slot of domain other", MODEL, "        self.fill(request, source.domain, key)\n", "        self.fill(request, 0, key)\n"),
    ("derive fills a slot of domain approved", MODEL, "self.fill(request, source.domain, self.engine.derive", "self.fill(request, 1, self.engine.derive"),
    ("derive swaps label and context", MODEL, "request.label, request.context, request.length", "request.context, request.label, request.length"),
    ("generate fills a slot of domain other", MODEL, "self.fill(request, request.domain, drawn)", "self.fill(request, 0, drawn)"),
    ("a filled slot has the source's flag", MODEL, "Slot(request.kind, domain, request.export, request.uses, key)", "Slot(request.kind, domain, 0, request.uses, key)"),
    ("SealIv is approved", MODEL, "is_cryptographic(service) and service != Service.SEAL_IV", "is_cryptographic(service)"),
    ("the indicator forgets the target", MODEL, "(\"slot\", \"kek\", \"second\", \"source\", \"target\")", "(\"slot\", \"kek\", \"second\")"),
    ("the indicator looks at the target before it is filled", MODEL, "int(is_approved(service, request) and all(slot and", "int(is_approved(service, request) and not hasattr(request, 'target') and all(slot and"),
    ("a MAC of three bytes is approved", MODEL, "SMALLEST_APPROVED_MAC = 4", "SMALLEST_APPROVED_MAC = 3"),
    ("a MAC of four bytes isn't approved", MODEL, "SMALLEST_APPROVED_MAC = 4", "SMALLEST_APPROVED_MAC = 5"),
    ("verify compares whole MACs", MODEL, "mac[: request.length] != request.mac", "mac != request.mac"),
    ("verify compares four bytes", MODEL, "mac[: request.length] != request.mac", "mac[:4] != request.mac[:4]"),
    ("seal answers a whole tag", MODEL, "        return drawn + ciphertext + tag[: request.length]", "        return drawn + ciphertext + tag"),
    ("seal doesn't tell its IV", MODEL, "        return drawn + ciphertext + tag[: request.length]", "        return ciphertext + tag[: request.length]"),
    ("the period ends one use late", MODEL, "self.count == self.period and", "self.count == self.period + 1 and"),
    ("the period's end goes back to Approved", MODEL, "            self.begin_tests(self.state)\n        return", "            self.begin_tests(State.APPROVED)\n        return"),
    ("a period's end keeps the tests that passed", MODEL, "self.count, self.tested = State.SELF_TEST, back, 0, 0, set()", "self.count = State.SELF_TEST, back, 0, 0"),
    ("a refused use ends no period", MODEL, "        except Refused as refusal:\n", "        except Refused as refusal:\n            self.count -= int(self.count == self.period and self.period > 0)\n"),
    ("a period ends in Error too", MODEL, "and self.state != State.ERROR:", "and True:"),
    ("a failure makes the count zero", MODEL, "State.ERROR, 0, 0\n", "State.ERROR, 0, 0\n            self.count = 0\n"),
    ("tests that are asked for keep the count", MODEL, "State.SELF_TEST, back, 0, 0, set()", "State.SELF_TEST, back, 0, self.count, set()"),
    ("tests that are asked for go back to Approved", MODEL, "State.APPROVED if self.state == State.INIT else self.state", "State.APPROVED"),
    ("a reset keeps the slots", MODEL, "        self.empty_all()\n\n    def empty_all", "        if not hasattr(self, 'slots'):\n            self.empty_all()\n\n    def empty_all"),
    ("zeroise all makes the generator zero", MODEL, "    def zeroise_all(self, request):\n", "    def zeroise_all(self, request):\n        self.generator = functions.Generator(bytes(32), bytes(32), 1)\n"),
    ("a commit looks at the check before the slot", MODEL, "        refuse_where(self.slots[entry.header.target] is not None, Status.OCCUPIED_SLOT)\n        refuse_where(self.engine.mac(1, entry.key, header_bytes(entry.header))[:CHECK] != request.check, Status.CHECK_FAILED)\n", "        refuse_where(self.engine.mac(1, entry.key, header_bytes(entry.header))[:CHECK] != request.check, Status.CHECK_FAILED)\n        refuse_where(self.slots[entry.header.target] is not None, Status.OCCUPIED_SLOT)\n"),
    ("a commit looks at the slot before the length", MODEL, "        refuse_where(len(entry.key) != entry.header.length, Status.BAD_LENGTH)\n        refuse_where(self.slots[entry.header.target] is not None, Status.OCCUPIED_SLOT)\n", "        refuse_where(self.slots[entry.header.target] is not None, Status.OCCUPIED_SLOT)\n        refuse_where(len(entry.key) != entry.header.length, Status.BAD_LENGTH)\n"),
    ("a piece that is too long ends the entry", MODEL, "        refuse_where(len(self.entry.key) + len", "        self.state = State.OFFICER if len(self.entry.key) + len(request.piece) > self.entry.header.length else self.state\n        refuse_where(len(self.entry.key) + len"),
    ("a derived key may be shorter", FORMS, "    need(fits(read[\"kind\"], APPROVED, read[\"length\"]))\n    label", "    need(fits(read[\"kind\"], OTHER, read[\"length\"]))\n    label"),
    ("a context may be longer", FORMS, "context=b.rest(0, 255)", "context=b.rest()"),
    ("a wrapped length needn't fit its kind", FORMS, "    need(length % 8 == 0 and fits(read[\"kind\"], OTHER, length - 8))", "    need(length % 8 == 0)"),
    ("a wrapped key may have 8 bytes", FORMS, "wrapped=b.rest(24, 72)", "wrapped=b.rest(16, 72)"),
    ("a padded wrapping has three semiblocks at least", FORMS, "wrapped=b.rest(16, 72)", "wrapped=b.rest(24, 72)"),
    ("a padded wrapping may have any length", FORMS, "    need(len(read[\"wrapped\"]) % 8 == 0)\n", ""),
    ("the two slots may be one", FORMS, "    need(kek != second)\n", ""),
    ("source and target may be one", FORMS, "    need(read[\"target\"] != other)\n", ""),
    ("random gives 65,537 bytes", FORMS, "b.number(4, 1, 65_536)", "b.number(4, 1, 65_537)"),
    ("random gives fewer than 65,536 bytes", FORMS, "b.number(4, 1, 65_536)", "b.number(4, 1, 65_535)"),
    ("an additional input has 255 bytes at most", FORMS, "additional=b.rest(0, 256)),\n    Service.GENERATE", "additional=b.rest(0, 255)),\n    Service.GENERATE"),
    ("a tag may have eleven bytes", FORMS, "iv_length, aad_length = b.number(1, 1, 255)", "iv_length, aad_length = b.number(1, 0, 255)"),
    ("a seal's tag may have eleven bytes", FORMS, "    slot, length, aad_length = b.slot(), b.number(1, 12, 16)", "    slot, length, aad_length = b.slot(), b.number(1, 11, 16)"),
    ("an open's tag may have eleven bytes", FORMS, "    slot, length = b.slot(), b.number(1, 12, 16)", "    slot, length = b.slot(), b.number(1, 11, 16)"),
    ("open reads its tag before its text", FORMS, "    cut = len(read[\"text\"]) - read[\"length\"]\n    return dict(read, text=read[\"text\"][:cut], tag=read[\"text\"][cut:])", "    cut = read[\"length\"]\n    return dict(read, text=read[\"text\"][cut:], tag=read[\"text\"][:cut])"),
    ("an open has some text", FORMS, "    need(read[\"length\"] <= len(read[\"text\"]))", "    need(read[\"length\"] < len(read[\"text\"]))"),
    ("a user generates", FORMS, "    Service.GENERATE: \"O\"", "    Service.GENERATE: \"OU\""),
    ("a user makes trees zero", FORMS, "    Service.ZEROISE_TREE: \"O\"", "    Service.ZEROISE_TREE: \"OU\""),
    ("an officer opens", FORMS, "    Service.OPEN: \"U\"", "    Service.OPEN: \"OU\""),
    ("only a user derives", FORMS, "    Service.DERIVE: \"OU\"", "    Service.DERIVE: \"U\""),
    ("only an officer draws", FORMS, "    Service.RANDOM: \"OU\"", "    Service.RANDOM: \"O\""),
    ("tests are asked for in Error", FORMS, "    Service.REQUEST_TESTS: \"IAOU\"", "    Service.REQUEST_TESTS: \"IAOUX\""),
    ("an IV of twelve bytes is hashed too", FUNCTIONS, "    if len(iv) == 12:\n", "    if False:\n"),
    ("an IV of sixteen bytes isn't hashed", FUNCTIONS, "    if len(iv) == 12:\n", "    if len(iv) == 16:\n        return iv\n    if len(iv) == 12:\n"),
    ("a long IV is cut", FUNCTIONS, "    return ghash(aes(key, bytes(BLOCK)), padded(iv)", "    iv = iv[:128]\n    return ghash(aes(key, bytes(BLOCK)), padded(iv)"),
    ("a whole block of text gets one of zeros", FUNCTIONS, "    return text + bytes(-len(text) % BLOCK)", "    return text + bytes(BLOCK - len(text) % BLOCK)"),
    ("a generator is updated once where there is no additional input", FUNCTIONS, "    for mark in (b\"\\0\", b\"\\1\") if data else (b\"\\0\",):", "    for mark in (b\"\\0\", b\"\\1\"):"),
    ("a generator takes its additional input once", FUNCTIONS, "    if additional:\n        k, v = updated(k, v, additional)\n", ""),
    ("a derived key's length counts bytes", FUNCTIONS, "(8 * count).to_bytes", "count.to_bytes"),
]

# Asks a model with a mistake what it answers to each stored dialogue, until one answer is another.
TELLS = """
import ast, sys
import machine
image, digest, noise = (open(f"{sys.argv[1]}/data/{name}", "rb").read() for name in ("image", "digest", "noise"))
digest = bytes.fromhex(digest.decode())
for name, samples, fault, replies in ast.literal_eval(sys.stdin.read()):
    stream = open(f"{sys.argv[1]}/data/{name}", "rb").read()
    try:
        asked = machine.Machine(image, digest, noise[:samples], machine.Engine(*fault))
        same = machine.served(asked, stream)[0] == replies
    except Exception:
        same = False
    if not same:
        print(name)
        break
"""


def baseline():
    """The dialogues with their noise, their engine's fault and the model's replies, the short ones first."""
    had = [(name, of()) for name, of in dialogue.DIALOGUES.items()]
    return [(name, d.samples, d.fault, d.replies) for name, d in sorted(had, key=lambda each: len(each[1].stream) + len(each[1].replies))]


def told(mistake, replies):
    """The first dialogue that tells a mistake; none where no dialogue does."""
    _, file, right, wrong = mistake
    with tempfile.TemporaryDirectory() as folder:
        for name in (MODEL, FORMS, FUNCTIONS):
            with open(os.path.join(HERE, name), encoding="utf-8") as source:
                text = source.read()
            if name == file:
                if text.count(right) != 1:
                    return f"BAD: its text stands {text.count(right)} times in {file}"
                text = text.replace(right, wrong)
            with open(os.path.join(folder, name), "w", encoding="utf-8") as copy:
                copy.write(text)
        words = [sys.executable, "-B", "-c", TELLS, os.path.join(stored_files.CRATES, dialogue.CRATE)]
        ran = subprocess.run(words, input=replies, cwd=folder, stdout=subprocess.PIPE, text=True, env={**os.environ, "PYTHONPATH": folder})
        return ran.stdout.strip() if ran.returncode == 0 else "BAD: it ended early"


def main():
    replies = repr(baseline())
    untold = 0
    for mistake in MISTAKES:
        by = told(mistake, replies)
        untold += not by or by.startswith("BAD")
        print(f"{mistake[0]}: {by or 'TOLD BY NO DIALOGUE'}", flush=True)
    print(f"{len(MISTAKES) - untold} of {len(MISTAKES)} mistakes are told")
    return 1 if untold else 0


if __name__ == "__main__":
    sys.exit(main())
