// A stock client of omniORB: reads, adds to and reads a register, whose reference is its one word.
#include <iostream>

#include "poad.hh"

int main(int argc, char** argv) {
    try {
        CORBA::ORB_var orb = CORBA::ORB_init(argc, argv);
        if (argc != 2) {
            std::cerr << "usage: client IOR\n";
            return 2;
        }
        CORBA::Object_var object = orb->string_to_object(argv[1]);
        poad::Register_var counter = poad::Register::_narrow(object);
        if (CORBA::is_nil(counter)) {
            std::cerr << "the reference is no register's\n";
            return 1;
        }
        std::cout << "get " << counter->get() << "\n";
        std::cout << "add " << counter->add(5) << "\n";
        std::cout << "add " << counter->add(-2) << "\n";
        std::cout << "get " << counter->get() << std::endl;
        orb->destroy();
        return 0;
    } catch (const CORBA::SystemException& raised) {
        std::cout << raised._name() << " " << std::hex << raised.minor() << std::endl;
        return 1;
    }
}
