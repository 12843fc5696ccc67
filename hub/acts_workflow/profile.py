"""What the service reads of the language of workflows, for words about what it refuses."""
from __future__ import annotations

import re

NAME = '[A-Za-z_][A-Za-z0-9_-]*'
OPERAND = (rf"(?:'(?:[^']|'')*'|(?:github|inputs|vars|strategy|matrix)(?: *\. *{NAME})+|needs *\. *{NAME} *\. *result)")
PIECE = re.compile(rf' *{OPERAND}(?: *\|\| *{OPERAND})* *')  # what the service accepts between the braces
LINK = rf"(?:{OPERAND}|(?<![\w.'-])(?:true|false|null|-?[0-9]+(?:\.[0-9]+)?)(?![\w.'-]))"
CHAIN = re.compile(rf' *{LINK}(?: *\|\| *{LINK})* *')  # the same once constants in it are texts
OF_A_JOB = re.compile(r'\b(needs|matrix|strategy) *\.')  # what has no value for a whole run
CONDITIONS = 'success()', 'failure()', 'always()', 'cancelled()', '!cancelled()', 'true', 'false'
MOST_JOBS = 256
LONGEST_BODY = 65_536  # bytes of an event
LONGEST_LOOK = 2000  # characters of a text that is refused

ADVICE = {
    10: 'Check the file with a JSON or YAML tool.',
    11: 'Compare the member with the workflow syntax of GitHub; leave out a member that is empty.',
    12: 'Begin the id of the job with a letter or _, and use letters, digits, - and _ alone.',
    13: 'Name the ids of jobs of this workflow in `needs`, letter by letter.',
    14: 'Remove a job from the `needs` of one that it waits for.',
    15: 'Name at least one label, as `runs-on: linux`.',
    16: 'Copy the called workflow into .github/workflows and call it by ./.github/workflows/NAME; '
        'name labels, not a group of runners.',
    17: 'Only references such as github.ref or matrix.os, joined by ||, may stay for the run here; '
        'let a step compute the value.',
    18: 'Use only github, inputs and vars in the concurrency of the workflow, or give the group to the job.',
    19: 'Give the variable a list of texts, whole numbers, true or false; '
        'name further values of a combination by `include`.',
    20: 'Give the variable a value, or leave it or the empty object out.',
    21: 'Shorten the lists of the matrix, or split the job in two.',
    22: 'Shorten the lists of the matrix, exclude combinations, or split the job in two: a job has 1 to 256 legs.',
    23: 'Split the workflow in two, or use a matrix for jobs that are alike: a workflow has at most 256 jobs.',
    24: 'Move long scripts of steps into files of the repository: a workflow has at most 65,536 bytes as JSON.',
    25: 'Write the matrix as lists in the workflow, `fail-fast` as true or false, '
        'and `max-parallel` as a number from 1 to 256.',
    26: 'Let the job run with always() or !cancelled(), and put the condition on its steps.',
    47: 'Copy the store into a larger file by acts grow: the event does not fit it.',
    48: 'Begin a new store: this one has had as many runs as it can number.',
}


def advice(number: int | None, text: str) -> str:
    """What to write in place of a text that is refused."""
    text = text[:LONGEST_LOOK]
    if number == 26 and re.search(r'\bneeds\b.*\boutputs\b', text):
        return 'Leave the job without this `if`, and put the condition on its steps: outputs of jobs are known there.'
    if number == 26 and re.search(r'\bneeds\b.*\bresult\b', text):
        return ('Write always(), failure() or !cancelled() for the job, '
                'and compare needs.ID.result in the `if` of its steps.')
    if number == 26 and re.search(r'\bsuccess\(\)\s*\|\|\s*failure\(\)|\bfailure\(\)\s*\|\|\s*success\(\)', text):
        return 'Write !cancelled() in place of success() || failure().'
    if number in (17, 19, 25) and re.search(r'\bneeds\b.*\boutputs\b', text):
        return ("Write the list in the workflow: a job can't make the matrix of another one here. "
                'Or let one job go through it in a step.')
    return ADVICE.get(number or 0, '')
