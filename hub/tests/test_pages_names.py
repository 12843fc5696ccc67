"""Names of legs in the order of the workflow's file."""
from __future__ import annotations

import pytest

from acts_hub.pages.names import job_name, leg_name
from acts_hub.service.facts import facts_of
from acts_hub.service.mirror import Run
from acts_hub.service.models import Job, Leg, Row

pytestmark = pytest.mark.quick


def test_a_leg_is_named_in_the_order_of_the_file() -> None:
    matrix = {'python': [3], 'os': ['linux'], 'include': [{'gpu': True}]}
    facts = facts_of({'workflow': {'jobs': {'test': {'strategy': {'matrix': matrix}},
                                            'a': {'name': 'Build ${{ matrix.os }}'}}}})
    row = Row(1, 1, 1, 'octo/hello', 'ci.yml', 'CI', 'push', 'd', None, 'completed', 'success', None)
    run = Run(row, facts, 0, 0, 0, 0, None, '')

    def job(id: str, name: str, combination: dict[str, object]) -> Job:
        return Job(id, 'success', (), None, (Leg(0, combination, 'success', None, None, (), None, None),), name)
    # GitHub: the values of the matrix in the order of its variables, then those that include adds
    test, build = job('test', 'test', {'gpu': True, 'os': 'linux',
                                       'python': 3}), job('a', 'Build ${{ matrix.os }}', {'os': 'linux'})
    assert leg_name(run, test, test.legs[0]) == 'test (3, linux, true)' and job_name(test) == 'test'
    assert leg_name(run, build, build.legs[0]) == 'Build linux' and job_name(build) == 'Build'
