/* The command protoc, for a machine that has Debian's library libprotoc32 and not the command, which is a call of the library.
   The library's headers aren't needed: these are the names of its C++ functions, and the object gets more room than it takes. */
void _ZN6google8protobuf8compiler20CommandLineInterfaceC1Ev(void *self);
int _ZN6google8protobuf8compiler20CommandLineInterface3RunEiPKPKc(void *self, int argc, char **argv);

static _Alignas(64) char interface[65536];

int main(int argc, char **argv) {
  _ZN6google8protobuf8compiler20CommandLineInterfaceC1Ev(interface);
  return _ZN6google8protobuf8compiler20CommandLineInterface3RunEiPKPKc(interface, argc, argv);
}
