#!/usr/bin/env python3
"""Loads a descriptor set and prints the number and the name of each field of a message.

usage: load.py SET MESSAGE
"""
import sys

from google.protobuf import descriptor_pb2, descriptor_pool

if len(sys.argv) != 3:
    sys.exit(__doc__)
with open(sys.argv[1], "rb") as file:
    descriptors = descriptor_pb2.FileDescriptorSet.FromString(file.read())
pool = descriptor_pool.DescriptorPool()
# In set order each file comes after what it imports, so one pass is enough.
for descriptor in descriptors.file:
    pool.Add(descriptor)
for field in pool.FindMessageTypeByName(sys.argv[2]).fields:
    print(field.number, field.name)
