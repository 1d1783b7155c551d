// Calls an object of each adapter of desk.toml, by omniORB.
#include <iostream>
#include <string>

#include "poad.hh"

// The object whose persistent key goes on so: an adapter's name and an id, each behind its length.
static CORBA::Object_ptr at(CORBA::ORB_ptr orb, const std::string& key) {
    return orb->string_to_object(("corbaloc:iiop:1.2@127.0.0.1:2809/POA%01%01%01" + key).c_str());
}

int main(int argc, char** argv) {
    CORBA::ORB_var orb = CORBA::ORB_init(argc, argv);
    try {
        CORBA::Object_var object = at(orb, "%03map%00%04main");
        poad::Register_var counter = poad::Register::_narrow(object);
        std::cout << "map: " << counter->get() << ", then " << counter->add(2) << std::endl;
        object = at(orb, "%04echo%00%01a");
        poad::EchoServant_var hello = poad::EchoServant::_narrow(object);
        poad::Octets octets(2, 2, (CORBA::Octet*)"hi", false);
        poad::Octets_var echoed = hello->echo(octets);
        std::cout << "echo: " << echoed->length() << " octets" << std::endl;
        object = at(orb, "%08accounts%00%03ann");
        counter = poad::Register::_narrow(object);
        std::cout << "accounts: " << counter->add(100) << std::endl;
        object = at(orb, "%05route%00%05audit");
        poad::Log_var audit = poad::Log::_narrow(object);
        std::cout << "route: entry " << audit->append(octets) << std::endl;
        try {
            poad::Octets_var entry = audit->read(1000);
        } catch (const poad::Range&) {
            std::cout << "route: no entry 1000" << std::endl;
        }
        object = at(orb, "%05route%00%04none");
        audit = poad::Log::_narrow(object);
    } catch (const CORBA::SystemException& raised) {
        std::cout << raised._name() << " " << std::hex << raised.minor() << std::endl;
    }
    orb->destroy();
}
