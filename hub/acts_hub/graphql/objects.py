"""The objects that GraphQL queries ask for: the viewer, repositories, pull requests with their checks."""
from __future__ import annotations

from collections.abc import Sequence
from typing import Any

from aiohttp import web

from ..access.identity import Identity, Right
from ..rest.api import Api
from ..rest.commits import latest_at
from ..rest.conclusions import rollup_state
from ..rest.errors import Fault
from ..rest.legs import JobView
from ..rest.numbers import named_by, node_of, number_of
from ..service.mirror import Run
from ..times import iso, iso_or_none
from .connections import connection
from .execution import Arguments, Thing, Unanswered

OPEN = 'Whether a pull request is open is not known here: only the runs that it started are.'
COUNT = 'How many commits a pull request has is not known here: only the one that its latest run is of.'


class Objects:
    """What one request may see."""

    def __init__(self, api: Api, request: web.Request, identity: Identity) -> None:
        self.api, self.hub, self.request, self.identity = api, api.hub, request, identity

    def root(self) -> Thing:
        """What queries begin with."""
        return Thing('Query',
                     {'viewer': lambda _: self.user(self.identity.name), 'repository': self.repository_of,
                      'node': self.node_of})

    def user(self, login: str) -> Thing:
        """A person."""
        return Thing('User',
                     {'login': login, 'id': node_of('User', login), 'databaseId': number_of('user', login.lower()),
                      'name': None,
                              'url': f'{self.api.shapes.web}/{login}'}, frozenset({'Actor', 'Node', 'RepositoryOwner'}))

    # repositories

    def repository_of(self, given: Arguments) -> Thing:
        """A repository by its owner and name."""
        return self.named(f'{given.get("owner")}/{given.get("name")}')

    def named(self, name: str) -> Thing:
        """A repository by its full name."""
        try:
            return self.repository(self.api.readable(self.request, name))
        except (Fault, web.HTTPException) as fault:
            if fault.status != 404:
                raise
            raise Unanswered('NOT_FOUND', f"Could not resolve to a Repository with the name '{name[:210]}'.") from None

    def repository(self, name: str) -> Thing:
        """A repository."""
        owner, _, short = name.partition('/')
        permission = next((right.name for right in (Right.ADMIN, Right.WRITE) if self.identity.may(right, name)),
                          'READ')
        branch = self.hub.config.default_branch(name)
        return Thing('Repository', {
            'id': node_of('Repository', name), 'databaseId': number_of('repo', name.lower()), 'name': short,
            'nameWithOwner': name,
            'owner': self.user(owner), 'url': f'{self.api.shapes.web}/{name}', 'description': '', 'isPrivate': True,
            'visibility': 'PRIVATE',
            'isArchived': False, 'isFork': False, 'hasIssuesEnabled': False, 'hasProjectsEnabled': False,
            'hasWikiEnabled': False, 'viewerPermission': permission, 'viewerCanAdminister': permission == 'ADMIN',
            'defaultBranchRef': Thing('Ref',
                                      {'name': branch, 'prefix': 'refs/heads/',
                                       'id': node_of('Ref', f'{name}:{branch}')}),
            'parent': None, 'mergeCommitAllowed': False, 'rebaseMergeAllowed': False, 'squashMergeAllowed': False,
            'pullRequest': lambda given: self.pull_of(name, given.get('number')),
            'pullRequests': lambda given: self.pulls_of(name, given)},
            frozenset({'Node'}))

    # pull requests

    def pull_of(self, name: str, number: object) -> Thing:
        """A pull request that has a run, by its number."""
        run = next((run for run in reversed(self.hub.mirror.of(name)) if run.facts.pull_number == number), None) \
            if isinstance(number, int) else None
        if run is None:
            words = f'Could not resolve to a PullRequest with the number of {str(number)[:20]}: no run of it is known.'
            raise Unanswered('NOT_FOUND', words)
        return self.pull(run)

    def pulls_of(self, name: str, given: Arguments) -> Thing:
        """The pull requests that have runs, newest first."""
        if given.get('states'):
            raise Unanswered('UNPROCESSABLE', OPEN)
        head, base = given.get('headRefName'), given.get('baseRefName')
        mirror = self.hub.mirror
        runs: Sequence[Run] = mirror.select(name, branch=head) if isinstance(head, str) else mirror.of(name)
        newest: dict[int, Run] = {}
        for run in reversed(runs):
            if run.facts.pull_number is not None and base in (None, run.facts.base_ref):
                newest.setdefault(run.facts.pull_number, run)
        return connection('pullRequests', [self.pull(newest[number]) for number in sorted(newest, reverse=True)], given)

    def pull(self, run: Run) -> Thing:
        """A pull request as its latest run tells it."""
        name, facts = run.row.repository, run.facts
        head = facts.head_repository or name
        owner, _, short = head.partition('/')
        return Thing('PullRequest', {
            'id': node_of('PullRequest', f'{name}#{facts.pull_number}'), 'number': facts.pull_number,
            'title': facts.pull_title or '',
            'url': f'{self.api.shapes.web}/{name}/pull/{facts.pull_number}', 'headRefName': facts.branch,
            'headRefOid': facts.sha,
            'baseRefName': facts.base_ref, 'isCrossRepository': head.lower() != name.lower(),
            'state': Unanswered('UNPROCESSABLE', OPEN),
            'headRepository': Thing('Repository', {'name': short, 'nameWithOwner': head, 'owner': self.user(owner),
                                                   'id': node_of('Repository', head)}),
            'headRepositoryOwner': self.user(owner), 'commits': lambda given: self.commits(run, given),
            'statusCheckRollup': lambda _: self.rollup(run)}, frozenset({'Node'}))

    def commits(self, run: Run, given: Arguments) -> Thing:
        """The commit of the latest run: the last of the pull request's commits, as far as is known."""
        if given.get('last') != 1:
            raise Unanswered('UNPROCESSABLE', COUNT)
        commit = Thing('Commit',
                       {'oid': run.facts.sha, 'abbreviatedOid': (run.facts.sha or '')[:7],
                        'statusCheckRollup': lambda _: self.rollup(run)})
        return Thing('PullRequestCommitConnection', {'totalCount': Unanswered('UNPROCESSABLE', COUNT),
                                                     'nodes': [Thing('PullRequestCommit', {'commit': commit})]})

    # checks

    async def rollup(self, run: Run) -> Thing | None:
        """The checks of a commit."""
        name, sha = run.row.repository, run.facts.sha
        runs = latest_at(self.hub.mirror, name, sha) if sha else []
        found = [(one, view) for one in runs for view in await self.api.jobs(one)]
        if not found:
            return None
        return Thing('StatusCheckRollup', {
            'state': rollup_state(view.conclusion for _, view in found),
            'contexts': lambda given: connection('contexts', [self.check(one, view) for one, view in found], given)})

    def check(self, run: Run, view: JobView) -> Thing:
        """A job as a check run. The hub has no rules of branches, so it requires none."""
        page = self.api.shapes.job_page(run, view)
        return Thing('CheckRun', {
            'id': node_of('CheckRun', view.value), 'databaseId': view.value, 'name': view.name,
            'status': view.status.upper(),
            'conclusion': view.conclusion.upper() if view.conclusion else None, 'startedAt': iso(view.started_at),
            'completedAt': iso_or_none(view.completed_at), 'detailsUrl': page, 'url': page, 'permalink': page,
            'isRequired': False, 'checkSuite': self.suite(run)}, frozenset({'Node', 'RequirableByPullRequest'}))

    def suite(self, run: Run) -> Thing:
        """A run as a check suite."""
        row = run.row
        workflow = Thing('Workflow',
                         {'name': row.workflow or row.path,
                          'databaseId': self.api.shapes.workflow_number(row.repository, row.path)})
        made: dict[str, Any] = {'databaseId': row.run, 'runNumber': row.number, 'event': row.event,
                                'url': self.api.shapes.run_page(run),
                                'createdAt': iso(run.created_at), 'updatedAt': iso(run.updated_at),
                                'workflow': workflow}
        return Thing('CheckSuite', {
            'id': node_of('CheckSuite', row.run), 'databaseId': row.run, 'workflowRun': Thing('WorkflowRun', made),
            'app': Thing('App', {'name': self.api.shapes.app['name'], 'slug': self.api.shapes.app['slug']})})

    # nodes

    def node_of(self, given: Arguments) -> Thing:
        """What an id names."""
        text = str(given.get('id'))
        kind, name = named_by(text) or ('', '')
        if kind == 'User' and name == self.identity.name:
            return self.user(name)
        if kind == 'Repository':
            return self.named(name)
        if kind == 'PullRequest':
            repository, _, number = name.partition('#')
            self.named(repository)
            return self.pull_of(repository,
                                int(number) if number.isascii() and number.isdigit() and len(number) < 16 else None)
        raise Unanswered('NOT_FOUND', f"Could not resolve to a node with the global id of '{text[:100]}'.")
