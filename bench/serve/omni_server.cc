// omniORB's server of the registers of beside.toml: one in the map, a default servant, and those that an activator
// brings. It prints a line for each, its adapter and a reference, and serves until it is killed.
#include <atomic>
#include <iostream>

#include "poad.hh"

// One long long, for any number of threads.
class Register : public POA_poad::Register {
public:
    CORBA::LongLong get() override { return value; }

    void set(CORBA::LongLong number) override { value = number; }

    CORBA::LongLong add(CORBA::LongLong number) override {
        CORBA::LongLong old = value, sum;
        do {
            if (__builtin_add_overflow(old, number, &sum)) throw poad::Overflow();
        } while (!value.compare_exchange_weak(old, sum));
        return sum;
    }

private:
    std::atomic<CORBA::LongLong> value{0};
};

// Brings a new register for each object.
class Activator : public POA_PortableServer::ServantActivator {
public:
    PortableServer::Servant incarnate(const PortableServer::ObjectId&, PortableServer::POA_ptr) override {
        return new Register;
    }

    void etherealize(const PortableServer::ObjectId&, PortableServer::POA_ptr, PortableServer::Servant servant,
                     CORBA::Boolean, CORBA::Boolean remaining) override {
        if (!remaining) servant->_remove_ref();
    }
};

// The adapters below the root, each with persistent objects whose ids are given.
class Adapters {
public:
    explicit Adapters(CORBA::ORB_ptr orb)
        : object(orb->resolve_initial_references("RootPOA")), root(PortableServer::POA::_narrow(object)) {}

    PortableServer::POA_ptr by_map() { return create("map", {}); }

    PortableServer::POA_ptr by_default_servant() {
        return create("default", {root->create_id_uniqueness_policy(PortableServer::MULTIPLE_ID),
                                  root->create_servant_retention_policy(PortableServer::NON_RETAIN),
                                  root->create_request_processing_policy(PortableServer::USE_DEFAULT_SERVANT)});
    }

    PortableServer::POA_ptr by_activator() {
        return create("activator", {root->create_request_processing_policy(PortableServer::USE_SERVANT_MANAGER)});
    }

    void activate() { PortableServer::POAManager_var(root->the_POAManager())->activate(); }

private:
    PortableServer::POA_ptr create(const char* name, std::initializer_list<CORBA::Policy_ptr> own) {
        CORBA::PolicyList policies;
        policies.length(2 + own.size());
        policies[0] = root->create_lifespan_policy(PortableServer::PERSISTENT);
        policies[1] = root->create_id_assignment_policy(PortableServer::USER_ID);
        CORBA::ULong at = 2;
        for (CORBA::Policy_ptr policy : own) policies[at++] = policy;
        PortableServer::POAManager_var manager = root->the_POAManager();
        return root->create_POA(name, manager, policies);
    }

    CORBA::Object_var object;
    PortableServer::POA_var root;
};

static void print_reference(CORBA::ORB_ptr orb, const char* name, PortableServer::POA_ptr adapter) {
    PortableServer::ObjectId_var id = PortableServer::string_to_ObjectId("main");
    CORBA::Object_var object = adapter->create_reference_with_id(id, poad::Register::_PD_repoId);
    CORBA::String_var reference = orb->object_to_string(object);
    std::cout << name << ' ' << reference << std::endl;
}

int main(int argc, char** argv) {
    try {
        CORBA::ORB_var orb = CORBA::ORB_init(argc, argv);
        Adapters adapters(orb);
        PortableServer::POA_var map = adapters.by_map(), preset = adapters.by_default_servant(),
                                activator = adapters.by_activator();
        map->activate_object_with_id(PortableServer::ObjectId_var(PortableServer::string_to_ObjectId("main")), new Register);
        preset->set_servant(new Register);
        activator->set_servant_manager(PortableServer::ServantManager_var((new Activator)->_this()));
        adapters.activate();
        print_reference(orb, "map", map);
        print_reference(orb, "default", preset);
        print_reference(orb, "activator", activator);
        orb->run();
    } catch (const CORBA::Exception& raised) {
        std::cerr << "omni_server: " << raised._name() << std::endl;
        return 1;
    }
}
