"""The digests of the program, by Python's own SHA-256 and HMAC, and sums of bytes in their place."""
import hashlib
import hmac


class ShaDigests:
    def __init__(self, key):
        self.key = key

    def text_digest(self, text):
        return hashlib.sha256(text).digest()

    def element_lanes(self, text):
        code = hmac.new(self.key, b"\1" + text, "sha256").digest()
        return [int.from_bytes(code[at : at + 4], "big") for at in range(0, 32, 4)]

    def tag(self, text):
        return hmac.new(self.key, b"\2" + text, "sha256").digest()

    def client_tag(self, client, text):
        """The tag of a text under the key of a client, which is made of the verifiers' key."""
        key = hmac.new(self.key, b"\3" + client.to_bytes(4, "big"), "sha256").digest()
        return hmac.new(key, text, "sha256").digest()


class ToyDigests:
    """The sum of the bytes of a text, as its digest and as its first lane."""

    def text_digest(self, text):
        return (sum(text) % 2**32).to_bytes(32, "big")

    def element_lanes(self, text):
        return [sum(text) % 2**32] + [0] * 7

    def tag(self, text):
        return self.text_digest(text)

    def client_tag(self, client, text):
        return self.tag(text)
