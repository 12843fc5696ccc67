"""What GitHub's documentation names: members of contexts, the places in which a context may stand, and the variables
that each step has."""
from __future__ import annotations

# 'Contexts reference': what is a fault where nobody has given it. What is empty at GitHub, too, is not among them.
MEMBERS = {
    'strategy': {'job-total', 'max-parallel'},
    'job': {'check_run_id'},
    'secrets': {'github_token'},
    'github': set('''action action_path action_ref action_repository action_status actor actor_id api_url base_ref env
    event event_name event_path graphql_url head_ref job path ref ref_name ref_protected ref_type repository
    repository_id repository_owner repository_owner_id repositoryurl retention_days run_attempt run_id run_number
    secret_source server_url sha token triggering_actor workflow workflow_ref workflow_sha workspace'''.split())}

# 'Contexts reference', 'Context availability', and 'Metadata syntax' for the texts of actions.
OF_JOBS = 'github needs strategy matrix vars inputs'
OF_STEPS = f'{OF_JOBS} job runner env secrets steps'
AVAILABLE = {place: frozenset(names.split()) for place, names in {
    'env': 'github secrets inputs vars',
    'jobs.env': f'{OF_JOBS} secrets',
    'jobs.defaults.run': f'{OF_JOBS} env',
    'jobs.timeout-minutes': OF_JOBS,
    'jobs.environment': OF_JOBS,
    'jobs.environment.url': f'{OF_JOBS} job runner env steps',
    'jobs.container': OF_JOBS,
    'jobs.container.credentials': f'{OF_JOBS} env secrets',
    'jobs.container.env': f'{OF_JOBS} job runner env secrets',
    'jobs.outputs': OF_STEPS,
    'jobs.steps': OF_STEPS,
    'jobs.steps.if': f'{OF_JOBS} job runner env steps',
    'runs.steps': 'github inputs strategy matrix job runner env steps',
    'runs.args': 'inputs',
    'outputs.value': 'github inputs strategy matrix job runner env steps',
    'inputs.default': 'github strategy matrix job runner'}.items()}
WITH_FILES = {'jobs.steps', 'jobs.steps.if', 'runs.steps', 'inputs.default'}  # where `hashFiles` may stand

# 'Variables reference': the default variables that every step has.
VARIABLES = set('''CI GITHUB_ACTION GITHUB_ACTIONS GITHUB_ACTOR GITHUB_ACTOR_ID GITHUB_API_URL GITHUB_BASE_REF
GITHUB_ENV GITHUB_EVENT_NAME GITHUB_EVENT_PATH GITHUB_GRAPHQL_URL GITHUB_HEAD_REF GITHUB_JOB GITHUB_OUTPUT GITHUB_PATH
GITHUB_REF GITHUB_REF_NAME GITHUB_REF_PROTECTED GITHUB_REF_TYPE GITHUB_REPOSITORY GITHUB_REPOSITORY_ID
GITHUB_REPOSITORY_OWNER GITHUB_REPOSITORY_OWNER_ID GITHUB_RETENTION_DAYS GITHUB_RUN_ATTEMPT GITHUB_RUN_ID
GITHUB_RUN_NUMBER GITHUB_SERVER_URL GITHUB_SHA GITHUB_STATE GITHUB_STEP_SUMMARY GITHUB_TRIGGERING_ACTOR
GITHUB_WORKFLOW GITHUB_WORKFLOW_REF GITHUB_WORKFLOW_SHA GITHUB_WORKSPACE RUNNER_ARCH RUNNER_ENVIRONMENT RUNNER_NAME
RUNNER_OS RUNNER_TEMP RUNNER_TOOL_CACHE'''.split())
OF_SERVICES = set('''ACTIONS_CACHE_URL ACTIONS_ID_TOKEN_REQUEST_TOKEN ACTIONS_ID_TOKEN_REQUEST_URL ACTIONS_RESULTS_URL
ACTIONS_RUNTIME_TOKEN ACTIONS_RUNTIME_URL'''.split())  # of GitHub's own services, which are not here

# 'Workflow syntax', `permissions`: those that give a job what only GitHub has.
PERMISSIONS = {'id-token': 'OpenID Connect', 'pages': 'GitHub Pages'}
