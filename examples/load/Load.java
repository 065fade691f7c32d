// Loads a descriptor set and prints the number and the name of each field of a message: Load SET MESSAGE
import com.google.protobuf.DescriptorProtos.FileDescriptorProto;
import com.google.protobuf.DescriptorProtos.FileDescriptorSet;
import com.google.protobuf.Descriptors.Descriptor;
import com.google.protobuf.Descriptors.FieldDescriptor;
import com.google.protobuf.Descriptors.FileDescriptor;
import java.io.FileInputStream;
import java.util.HashMap;
import java.util.Map;

class Load {
    public static void main(String[] words) throws Exception {
        if (words.length != 2) {
            System.err.println("usage: Load SET MESSAGE");
            System.exit(2);
        }
        FileDescriptorSet set;
        try (FileInputStream input = new FileInputStream(words[0])) {
            set = FileDescriptorSet.parseFrom(input);
        }
        // In set order each file comes after what it imports, so one pass is enough.
        Map<String, FileDescriptor> files = new HashMap<>();
        for (FileDescriptorProto file : set.getFileList()) {
            FileDescriptor[] imports = file.getDependencyList().stream().map(files::get).toArray(FileDescriptor[]::new);
            files.put(file.getName(), FileDescriptor.buildFrom(file, imports));
        }
        for (FileDescriptor file : files.values()) {
            for (Descriptor message : file.getMessageTypes()) {
                if (message.getFullName().equals(words[1])) {
                    for (FieldDescriptor field : message.getFields()) {
                        System.out.println(field.getNumber() + " " + field.getName());
                    }
                }
            }
        }
    }
}
