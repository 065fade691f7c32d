// Loads a descriptor set and prints the number and the name of each field of a message: load SET MESSAGE
package main

import (
	"fmt"
	"log"
	"os"

	"google.golang.org/protobuf/proto"
	"google.golang.org/protobuf/reflect/protodesc"
	"google.golang.org/protobuf/reflect/protoreflect"
	"google.golang.org/protobuf/types/descriptorpb"
)

func main() {
	if len(os.Args) != 3 {
		log.Fatal("usage: load SET MESSAGE")
	}
	bytes, err := os.ReadFile(os.Args[1])
	if err != nil {
		log.Fatal(err)
	}
	var set descriptorpb.FileDescriptorSet
	if err := proto.Unmarshal(bytes, &set); err != nil {
		log.Fatal(err)
	}
	files, err := protodesc.NewFiles(&set)
	if err != nil {
		log.Fatal(err)
	}
	found, err := files.FindDescriptorByName(protoreflect.FullName(os.Args[2]))
	if err != nil {
		log.Fatal(err)
	}
	message, ok := found.(protoreflect.MessageDescriptor)
	if !ok {
		log.Fatal(os.Args[2], ": no message")
	}
	for i := 0; i < message.Fields().Len(); i++ {
		field := message.Fields().Get(i)
		fmt.Println(field.Number(), field.Name())
	}
}
