"""A digest and a signature of a document by its canonical text, which hold for every spelling of it."""
import hashlib
import hmac

import miniserde


def digest(text):
    """Refuses a document with duplicate names: another reader might take the first of them."""
    return hashlib.sha256(miniserde.canonical(text, unique=True)).hexdigest()


def sign(key, text):
    return hmac.digest(key, miniserde.canonical(text, unique=True), "sha256")


def is_signed(key, text, signature):
    try:
        return hmac.compare_digest(sign(key, text), signature)
    except ValueError:
        return False


if __name__ == "__main__":
    sent = '{"to": "Ren\\u00e9e", "amount": 12.50}'
    signature = sign(b"a secret of both", sent)
    print(digest(sent))
    print(is_signed(b"a secret of both", '{"amount":12.50,"to":"Renée"}', signature))
    print(is_signed(b"a secret of both", '{"amount":12.5,"to":"Renée"}', signature))
