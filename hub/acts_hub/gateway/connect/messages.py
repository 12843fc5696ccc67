"""The messages of `runner.v1` and `ping.v1` as classes of protobuf's own library, made of the form in which Gitea publishes
them (actions-proto-def). Fields that are deprecated there are left out, and the word `optional`, which changes no byte of
what is sent here."""
from __future__ import annotations

import re
from typing import Any

from google.protobuf import descriptor_pb2, descriptor_pool, message_factory, struct_pb2, timestamp_pb2

PACKAGE = 'runner.v1'
FORMS = """
message RegisterRequest { string name = 1; string token = 2; string version = 5; repeated string labels = 6; bool ephemeral = 7; }
message RegisterResponse { Runner runner = 1; }
message DeclareRequest { string version = 1; repeated string labels = 2; }
message DeclareResponse { Runner runner = 1; }
message FetchTaskRequest { int64 tasks_version = 1; }
message FetchTaskResponse { Task task = 1; int64 tasks_version = 2; }
message UpdateTaskRequest { TaskState state = 1; map<string, string> outputs = 2; }
message UpdateTaskResponse { TaskState state = 1; repeated string sent_outputs = 2; }
message UpdateLogRequest { int64 task_id = 1; int64 index = 2; repeated LogRow rows = 3; bool no_more = 4; }
message UpdateLogResponse { int64 ack_index = 1; }
message PingRequest { string data = 1; }
message PingResponse { string data = 1; }
message Runner {
  int64 id = 1; string uuid = 2; string token = 3; string name = 4; RunnerStatus status = 5; string version = 8;
  repeated string labels = 9; bool ephemeral = 10;
}
message Task {
  int64 id = 1; bytes workflow_payload = 2; google.protobuf.Struct context = 3; map<string, string> secrets = 4;
  map<string, TaskNeed> needs = 6; map<string, string> vars = 7;
}
message TaskNeed { map<string, string> outputs = 1; Result result = 2; }
message TaskState {
  int64 id = 1; Result result = 2; google.protobuf.Timestamp started_at = 3; google.protobuf.Timestamp stopped_at = 4;
  repeated StepState steps = 5;
}
message StepState {
  int64 id = 1; Result result = 2; google.protobuf.Timestamp started_at = 3; google.protobuf.Timestamp stopped_at = 4;
  int64 log_index = 5; int64 log_length = 6;
}
message LogRow { google.protobuf.Timestamp time = 1; string content = 2; }
enum RunnerStatus {
  RUNNER_STATUS_UNSPECIFIED = 0; RUNNER_STATUS_IDLE = 1; RUNNER_STATUS_ACTIVE = 2; RUNNER_STATUS_OFFLINE = 3;
}
enum Result {
  RESULT_UNSPECIFIED = 0; RESULT_SUCCESS = 1; RESULT_FAILURE = 2; RESULT_CANCELLED = 3; RESULT_SKIPPED = 4;
}
"""
IDLE = 1
UNSPECIFIED, SUCCESS, FAILURE, CANCELLED, SKIPPED = range(5)
FORM = re.compile(r'(message|enum) (\w+) \{([^}]*)\}')
FIELD = re.compile(r'(repeated )?(?:map<string, (\w+)>|([\w.]+)) (\w+) = (\d+);')
VALUE = re.compile(r'(\w+) = (\d+);')
Field = descriptor_pb2.FieldDescriptorProto
SCALARS = {'string': Field.TYPE_STRING, 'bytes': Field.TYPE_BYTES, 'bool': Field.TYPE_BOOL, 'int64': Field.TYPE_INT64}


def add_field(message: Any, name: str, number: int, kind: str, is_repeated: bool = False) -> Any:
    """Adds a field to the description of a message."""
    label = Field.LABEL_REPEATED if is_repeated else Field.LABEL_OPTIONAL
    made = message.field.add(name=name, number=number, label=label)
    if kind in SCALARS:
        made.type = SCALARS[kind]
    else:
        made.type_name = f'.{kind}' if '.' in kind else f'.{PACKAGE}.{kind}'
    return made


def add_map(message: Any, name: str, number: int, kind: str) -> None:
    """Adds a field that holds values by names: entries of a message of its own, as protobuf has it."""
    entry = message.nested_type.add(name=''.join(map(str.capitalize, name.split('_'))) + 'Entry')
    entry.options.map_entry = True
    add_field(entry, 'key', 1, 'string')
    add_field(entry, 'value', 2, kind)
    add_field(message, name, number, f'{PACKAGE}.{message.name}.{entry.name}', is_repeated=True)


def described(forms: str) -> Any:
    """The description of messages and enumerations, of their published form."""
    file = descriptor_pb2.FileDescriptorProto(name='runner.proto', package=PACKAGE, syntax='proto3')
    file.dependency.extend([struct_pb2.DESCRIPTOR.name, timestamp_pb2.DESCRIPTOR.name])
    for what, name, body in FORM.findall(forms):
        if what == 'enum':
            enumeration = file.enum_type.add(name=name)
            for each, number in VALUE.findall(body):
                enumeration.value.add(name=each, number=int(number))
            continue
        message = file.message_type.add(name=name)
        for repeated, of_map, kind, field, number in FIELD.findall(body):
            if of_map:
                add_map(message, field, int(number), of_map)
            else:
                add_field(message, field, int(number), kind, bool(repeated))
    return file


def classes(forms: str) -> dict[str, Any]:
    """The class of each message, by its name."""
    pool = descriptor_pool.DescriptorPool()
    for known in struct_pb2.DESCRIPTOR, timestamp_pb2.DESCRIPTOR:
        pool.AddSerializedFile(known.serialized_pb)
    pool.AddSerializedFile(described(forms).SerializeToString())
    factory = message_factory.MessageFactory(pool)
    return {name: factory.GetPrototype(pool.FindMessageTypeByName(f'{PACKAGE}.{name}'))
            for what, name, _ in FORM.findall(forms) if what == 'message'}


MESSAGES = classes(FORMS)


def nanoseconds(message: Any, name: str) -> int | None:
    """A time of a message, since 1970; None if it has none."""
    if not message.HasField(name):
        return None
    time = getattr(message, name)
    return int(time.seconds) * 10 ** 9 + int(time.nanos)
