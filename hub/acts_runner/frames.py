"""Where steps stand."""
from __future__ import annotations

from dataclasses import dataclass, field
from typing import Any

from .actions import Action

Step = dict[str, Any]


@dataclass
class Frame:
    """Where steps stand: in the job, or in an action that has steps."""

    inputs: Any
    action: Action | None = None
    steps: dict[str, Any] = field(default_factory=dict)
    status: str = 'success'
    env: dict[str, str] = field(default_factory=dict)
