// omniORB's server at a port of 127.0.0.1, of objects whose keys are those of a poad: of the adapter `/away`, and the ids
// `register`, `echo`, `log`, and two that send their clients to the reference: `back`, and `moved` for good. It says
// `ready`, and serves until it is killed.
//
// server PORT REFERENCE
#include <iostream>
#include <string>

#include "poad.hh"

class Register : public POA_poad::Register {
public:
    CORBA::LongLong get() override { return value; }

    void set(CORBA::LongLong number) override { value = number; }

    CORBA::LongLong add(CORBA::LongLong number) override {
        CORBA::LongLong sum;
        if (__builtin_add_overflow(value, number, &sum)) throw poad::Overflow();
        return value = sum;
    }

private:
    CORBA::LongLong value = 5;
};

class Echo : public POA_poad::EchoServant {
public:
    poad::Octets* echo(const poad::Octets& bytes) override { return new poad::Octets(bytes); }

    void ping() override {}
};

class Log : public POA_poad::Log {
public:
    CORBA::ULong append(const poad::Octets& entry) override { return entry.length(); }

    poad::Octets* read(CORBA::ULong) override { throw poad::Range(); }
};

// Sends whoever asks elsewhere.
class Signpost : public POA_poad::Register {
public:
    Signpost(CORBA::Object_ptr there, bool is_for_good) : there(there), is_for_good(is_for_good) {}

    CORBA::LongLong get() override { throw omniORB::LOCATION_FORWARD(CORBA::Object::_duplicate(there), is_for_good); }

    void set(CORBA::LongLong) override { get(); }

    CORBA::LongLong add(CORBA::LongLong) override { return get(); }

private:
    CORBA::Object_ptr there;
    bool is_for_good;
};

// The persistent key of an object of the adapter.
static std::string key_of(const std::string& id) {
    return std::string("POA\1\1\1\4away") + '\0' + char(id.size()) + id;
}

static void activate(PortableServer::POA_ptr keys, const std::string& id, PortableServer::Servant servant) {
    std::string key = key_of(id);
    PortableServer::ObjectId octets(key.size(), key.size(), (CORBA::Octet*)key.data(), false);
    keys->activate_object_with_id(octets, servant);
}

int main(int argc, char** argv) {
    if (argc != 3) {
        std::cerr << "usage: server PORT REFERENCE\n";
        return 2;
    }
    try {
        std::string point = std::string("giop:tcp:127.0.0.1:") + argv[1];
        const char* options[][2] = {{"endPoint", point.c_str()}, {nullptr, nullptr}};
        int none = 0;
        CORBA::ORB_var orb = CORBA::ORB_init(none, nullptr, "omniORB4", options);
        CORBA::Object_var there = orb->string_to_object(argv[2]);
        // Its objects' ids are their whole keys.
        CORBA::Object_var object = orb->resolve_initial_references("omniINSPOA");
        PortableServer::POA_var keys = PortableServer::POA::_narrow(object);
        activate(keys, "register", new Register);
        activate(keys, "echo", new Echo);
        activate(keys, "log", new Log);
        activate(keys, "back", new Signpost(there, false));
        activate(keys, "moved", new Signpost(there, true));
        PortableServer::POAManager_var(keys->the_POAManager())->activate();
        std::cout << "ready" << std::endl;
        orb->run();
    } catch (const CORBA::Exception& raised) {
        std::cerr << "server: " << raised._name() << std::endl;
        return 1;
    }
}
