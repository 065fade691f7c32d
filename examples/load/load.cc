// Loads a descriptor set and prints the number and the name of each field of a message: load SET MESSAGE
#include <fstream>
#include <iostream>

#include <google/protobuf/descriptor.h>
#include <google/protobuf/descriptor.pb.h>

int main(int count, char **words) {
    if (count != 3) {
        std::cerr << "usage: load SET MESSAGE\n";
        return 2;
    }
    std::ifstream input(words[1], std::ios::binary);
    google::protobuf::FileDescriptorSet set;
    if (!set.ParseFromIstream(&input)) {
        std::cerr << words[1] << ": no set\n";
        return 1;
    }
    google::protobuf::DescriptorPool pool;
    // In set order each file comes after what it imports, so one pass is enough.
    for (const auto &file : set.file()) {
        if (!pool.BuildFile(file)) {
            return 1;
        }
    }
    const auto *message = pool.FindMessageTypeByName(words[2]);
    if (!message) {
        std::cerr << words[2] << ": no message\n";
        return 1;
    }
    for (int i = 0; i < message->field_count(); i++) {
        std::cout << message->field(i)->number() << " " << message->field(i)->name() << "\n";
    }
}
