"""The tables of the ledger. A step is never changed once it was pushed: a change is a further step."""
from __future__ import annotations

STEPS = (
    '''
    create table meta (name text primary key, value text not null) without rowid;
    create table runs (
        run integer primary key, repository text not null, delivery text not null, digest text, facts text, created_at integer not null, created_source text not null);
    create table attempts (
        run integer not null, attempt integer not null, started_at integer, updated_at integer, completed_at integer, status text, conclusion text,
        triggering_actor text, skipped integer, whole text, primary key (run, attempt)) without rowid;
    create table legs (
        run integer not null, attempt integer not null, job text not null, leg integer not null, lease integer, runner text, state text,
        started_at integer, ended_at integer, combination text, labels text, primary key (run, attempt, job, leg)) without rowid;
    create index legs_lease on legs (lease) where lease is not null;
    create table runners (name text primary key, labels text not null, seen_at integer not null) without rowid;
    create table refused (
        id integer primary key autoincrement, at integer not null, repository text not null collate nocase, event text not null, delivery text not null,
        path text, ref text, sha text, code integer, line integer, words text not null, advice text not null);
    create index refused_of on refused (repository, id);
    create table notes (
        run integer not null, attempt integer not null, kind text not null, name text not null, value text not null, at integer not null,
        primary key (run, attempt, kind, name)) without rowid;
    create table tokens (
        id integer primary key autoincrement, digest blob not null unique, name text not null, right text not null, repositories text not null,
        prefix text not null, labels text not null, created_at integer not null, expires_at integer, revoked_at integer);
    create table sessions (digest blob primary key, token integer not null references tokens (id), created_at integer not null, expires_at integer not null) without rowid;
    create table artifacts (
        id integer primary key autoincrement, run integer not null, attempt integer not null, name text not null, file text not null, size integer not null,
        digest text not null, created_at integer not null, expires_at integer not null, unique (run, attempt, name));
    create table caches (
        id integer primary key autoincrement, repository text not null, scope text not null, key text not null, version text not null, file text not null,
        size integer not null, digest text not null, created_at integer not null, used_at integer not null, unique (repository, scope, key, version));
    create index caches_used on caches (used_at);
    insert into meta values ('tokens', '0');
    create trigger tokens_added after insert on tokens begin update meta set value = value + 1 where name = 'tokens'; end;
    create trigger tokens_changed after update on tokens begin update meta set value = value + 1 where name = 'tokens'; end;
    create trigger tokens_removed after delete on tokens begin update meta set value = value + 1 where name = 'tokens'; end;
    ''',
)
