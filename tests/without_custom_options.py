#!/usr/bin/env python3
"""without_custom_options.py OURS PROTOCS: compares two FileDescriptorSets, file by file. Each file of OURS has to be that of PROTOCS
once what `--skip-custom-options` leaves out is taken out of it: custom options, the options that docs/LANGUAGE.md has not, extensions,
the mark of weak imports, and imports of files that OURS has not. An empty `options` counts as none. It prints what differs."""
import sys

from google.protobuf import descriptor_pb2

UNWRITTEN = {
    "FileOptions": ["cc_generic_services", "java_generic_services", "py_generic_services", "php_generic_services",
                    "java_generate_equals_and_hash", "java_string_check_utf8"],
    "MessageOptions": ["message_set_wire_format", "no_standard_descriptor_accessor"],
    "FieldOptions": ["ctype", "lazy", "unverified_lazy", "weak"],
}


def without(message):
    """Takes out of a descriptor, and of all that stand in it, what is left out."""
    kind = message.DESCRIPTOR.name
    for name in UNWRITTEN.get(kind, []):
        message.ClearField(name)
    if "extension" in message.DESCRIPTOR.fields_by_name:
        message.ClearField("extension")
    for field, value in message.ListFields():
        if field.type != field.TYPE_MESSAGE:
            continue
        for one in value if field.label == field.LABEL_REPEATED else [value]:
            without(one)
        if field.name == "options" and not value.ByteSize():
            message.ClearField("options")


def comparable(file, names):
    """A file without what is left out, and without the imports of files that are none of these."""
    file.DiscardUnknownFields()
    without(file)
    public = {file.dependency[at] for at in file.public_dependency}
    kept = [name for name in file.dependency if name in names]
    for name in ("dependency", "public_dependency", "weak_dependency"):
        file.ClearField(name)
    file.dependency.extend(kept)
    file.public_dependency.extend(at for at, name in enumerate(kept) if name in public)
    return file


def read(path):
    with open(path, "rb") as file:
        return descriptor_pb2.FileDescriptorSet.FromString(file.read()).file


def main():
    ours, theirs = read(sys.argv[1]), {file.name: file for file in read(sys.argv[2])}
    names = {file.name for file in ours}
    differ = 0
    for file in ours:
        if file.name not in theirs:
            print(f"{file.name}: protoc's set has no such file")
            differ += 1
        elif comparable(file, names) != comparable(theirs[file.name], names):
            print(f"{file.name}: differs from protoc's")
            differ += 1
    sys.exit(1 if differ or not ours else 0)


main()
