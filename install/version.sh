#!/usr/bin/env bash
# Sourced from the repository's root: the version of the tool and of the shared object, which tools/Cargo.toml states, and the
# first of its numbers, which the shared object's callers are bound to.
version=$(sed -n 's/^version = "\([0-9.]*\)"$/\1/p' tools/Cargo.toml)
major=${version%%.*}
