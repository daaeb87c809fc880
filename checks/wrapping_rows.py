"""Prints the wrappings of crates/crypto_services/src/tests_wrapping.rt, by Python's cryptography."""
from cryptography.hazmat.primitives.keywrap import aes_key_wrap, aes_key_wrap_with_padding

KEK = bytes(range(32))
TEXT = bytes(range(64, 128))

TABLES = [
    ("WRAPPED", "The first 16 bytes of TEXT, wrapped without padding.", aes_key_wrap(KEK, TEXT[:16])),
    ("WRAPPED_LONGEST", "All 64 bytes of TEXT, wrapped without padding.", aes_key_wrap(KEK, TEXT)),
    ("PADDED", "The first 20 bytes of TEXT, wrapped with padding.", aes_key_wrap_with_padding(KEK, TEXT[:20])),
    ("PADDED_ONE", "The first byte of TEXT, wrapped with padding.", aes_key_wrap_with_padding(KEK, TEXT[:1])),
]

for name, said, wrapped in TABLES:
    print(f"# {name}")
    print(f"// {said}\nconst {name}: [u8; {len(wrapped)}] = [")
    for at in range(0, len(wrapped), 16):
        print("    " + " ".join(f"0x{byte:02x}," for byte in wrapped[at:at + 16]))
    print("];\n")
