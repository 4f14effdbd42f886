"""The signer, the only one of tests and benchmark: the frames of a host and the replies of a device,
signed with Python's own hmac."""

import hmac

ALL_FF = b"\xff" * 32
SIGNED = (4, 8, 8, 16)  # the bytes of a frame that are signed, by type


def signature(key, message):
    return hmac.digest(key, message, "sha256")


def signed_frame(key, frame):
    """The frame with the signature that its bytes have under a key, whatever stood there before."""
    message = frame[: SIGNED[frame[1]]]
    digest = signature(key, message)
    return frame[:36] + digest[-28:] if frame[1] == 0x00 else message + digest


def signed_reply(key, told):
    """Tag and value as a device puts them behind its status."""
    return told + signature(key, told)


def root_key_frame(counter, key):
    return signed_frame(key, bytes([0x9B, 0x00, counter, 0x00]) + key)


def session_key_frame(counter, root_key, data):
    return signed_frame(signature(root_key, data), bytes([0x9B, 0x01, counter, 0x00]) + data)


def increment_frame(counter, session_key, value):
    return signed_frame(session_key, bytes([0x9B, 0x02, counter, 0x00]) + value.to_bytes(4, "big"))


def request_frame(counter, session_key, tag):
    return signed_frame(session_key, bytes([0x9B, 0x03, counter, 0x00]) + tag)
