"""Signatures of webhooks: the HMAC with SHA-256 of the body under the secret."""
from __future__ import annotations

import hashlib
import hmac
from typing import Mapping


def signature(secret: bytes, body: bytes) -> str:
    """The value of `X-Hub-Signature-256` for a body."""
    return 'sha256=' + hmac.new(secret, body, hashlib.sha256).hexdigest()


def is_signed(secret: bytes, body: bytes, given: str) -> bool:
    """Whether a signature is that of the body under a secret. An empty secret signs nothing."""
    return bool(secret) and hmac.compare_digest(signature(secret, body).encode(), given.encode(errors='replace'))


def signers(secrets: Mapping[str, bytes], body: bytes, given: str) -> set[str]:
    """The repositories under whose secret the body is signed. The body is not looked at before that."""
    signing = {secret for secret in set(secrets.values()) if is_signed(secret, body, given)}
    return {name for name, secret in secrets.items() if secret in signing}
