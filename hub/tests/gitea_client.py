"""A client of Gitea's protocol of runners, as act_runner speaks it: its messages are made by protoc from their published form, and not by this program."""
from __future__ import annotations

import functools
import json
import pathlib
import subprocess
import tempfile
from typing import Any

from google.protobuf import descriptor_pb2, descriptor_pool, json_format, message_factory
from harness import Answer, HubProcess

PROTO = pathlib.Path(__file__).parent / 'rows' / 'runner.proto'
SERVICES = {'Ping': 'ping.v1.PingService'}
IMPORTED = {  # as protobuf publishes them
    'timestamp': 'message Timestamp { int64 seconds = 1; int32 nanos = 2; }',
    'struct': """message Struct { map<string, Value> fields = 1; }
        message Value { oneof kind { NullValue null_value = 1; double number_value = 2; string string_value = 3; bool bool_value = 4; Struct struct_value = 5;
                                     ListValue list_value = 6; } }
        enum NullValue { NULL_VALUE = 0; }
        message ListValue { repeated Value values = 1; }"""}


@functools.cache
def messages() -> dict[str, Any]:
    """The classes of all messages, by their names."""
    with tempfile.TemporaryDirectory() as folder:
        made = pathlib.Path(folder, 'set')
        pathlib.Path(folder, 'google', 'protobuf').mkdir(parents=True)
        for name, text in IMPORTED.items():
            pathlib.Path(folder, 'google', 'protobuf', f'{name}.proto').write_text(f'syntax = "proto3";\npackage google.protobuf;\n{text}\n')
        paths = [f'--proto_path={PROTO.parent}', f'--proto_path={folder}']
        subprocess.run(['protoc', *paths, '--include_imports', f'--descriptor_set_out={made}', str(PROTO)], check=True)
        files = descriptor_pb2.FileDescriptorSet.FromString(made.read_bytes())
    pool = descriptor_pool.DescriptorPool()
    for file in files.file:
        pool.Add(file)
    factory = message_factory.MessageFactory(pool)
    return {name: factory.GetPrototype(pool.FindMessageTypeByName(f'runner.v1.{name}')) for name in
            [message.name for file in files.file if file.package == 'runner.v1' for message in file.message_type]}


class Refusal(Exception):
    """An error of Connect's."""

    def __init__(self, answer: Answer) -> None:
        said = answer.json()
        super().__init__(f'{said["code"]}: {said["message"]}')
        self.status, self.code = answer.status, said['code']


class Client:
    """A runner of Gitea's, by hand. Its calls are in the binary form, or in JSON."""

    def __init__(self, hub: HubProcess, is_json: bool = False) -> None:
        self.hub, self.is_json = hub, is_json
        self.uuid, self.token = '', ''

    def call(self, method: str, **given: Any) -> Any:
        """A call. What is given has the names of the published fields; the answer is a message."""
        return self.send(method, json_format.ParseDict(given, messages()[f'{method}Request']()))

    def send(self, method: str, made: Any) -> Any:
        """A call with a message."""
        body = json_format.MessageToJson(made).encode() if self.is_json else made.SerializeToString()
        kind = 'application/json' if self.is_json else 'application/proto'
        headers = {'Content-Type': kind, 'Connect-Protocol-Version': '1', 'x-runner-uuid': self.uuid, 'x-runner-token': self.token}
        answer = self.hub.request('POST', f'/api/actions/{SERVICES.get(method, "runner.v1.RunnerService")}/{method}', body, headers=headers)
        if answer.status != 200:
            raise Refusal(answer)
        assert answer.headers.get_content_type() == kind
        form = messages()[f'{method}Response']
        return json_format.Parse(answer.body.decode(), form()) if self.is_json else form.FromString(answer.body)

    def register(self, token: str, *labels: str, name: str = 'g1', **more: Any) -> Any:
        """Registers, and says its labels, as act_runner does at its start."""
        runner = self.call('Register', name=name, token=token, labels=list(labels), version='v0.2.11', **more).runner
        self.uuid, self.token = runner.uuid, runner.token
        return self.call('Declare', version='v0.2.11', labels=list(labels)).runner

    def fetch(self) -> Any:
        """A task; None if there is none."""
        found = self.call('FetchTask', tasks_version=0)
        return found.task if found.HasField('task') else None

    def log(self, task: Any, index: int, *lines: str, no_more: bool = False) -> int:
        """Sends lines of a log; gives how many there are."""
        rows = [{'time': f'2026-11-30T12:00:{index + number:02d}.500Z', 'content': line} for number, line in enumerate(lines)]
        acknowledged: int = self.call('UpdateLog', task_id=task.id, index=index, rows=rows, no_more=no_more).ack_index
        return acknowledged

    def update(self, task: Any, result: str = 'UNSPECIFIED', steps: list[dict[str, Any]] | None = None, outputs: dict[str, str] | None = None) -> Any:
        """Reports a task; gives the answer."""
        state = {'id': task.id, 'result': f'RESULT_{result}', 'started_at': '2026-11-30T12:00:00Z', 'steps': steps or []}
        if result != 'UNSPECIFIED':
            state['stopped_at'] = '2026-11-30T12:01:00Z'
        return self.call('UpdateTask', state=state, outputs=outputs or {})


def workflow_of(task: Any) -> Any:
    """The workflow of a task."""
    return json.loads(task.workflow_payload)


def context_of(task: Any) -> Any:
    """Its context `github`."""
    return json_format.MessageToDict(task.context)
