// A client of a naming service over omniORB's stubs of CosNaming, which does all on one connection, and prints a line of
// what came of each step.
#include <omniORB4/CORBA.h>
#include <omniORB4/Naming.hh>
#include <iostream>

static CosNaming::Name name(const char* id, const char* next = 0) {
    CosNaming::Name made;
    made.length(next ? 2 : 1);
    made[0].id = CORBA::string_dup(id);
    if (next) made[1].id = CORBA::string_dup(next);
    return made;
}

template <typename Step> static void does(const char* what, Step step) {
    std::cout << what << ": ";
    try {
        step();
        std::cout << "done";
    } catch (CosNaming::NamingContext::NotFound& raised) {
        std::cout << "NotFound " << raised.why << " " << raised.rest_of_name[0].id << " of " << raised.rest_of_name.length();
    } catch (CosNaming::NamingContext::AlreadyBound&) {
        std::cout << "AlreadyBound";
    } catch (CosNaming::NamingContext::InvalidName&) {
        std::cout << "InvalidName";
    } catch (CORBA::SystemException& raised) {
        std::cout << raised._name() << " " << std::hex << raised.minor() << std::dec;
    }
    std::cout << std::endl;
}

int main(int argc, char** argv) {
    CORBA::ORB_var orb = CORBA::ORB_init(argc, argv);
    CORBA::Object_var initial = orb->resolve_initial_references("NameService");
    CosNaming::NamingContext_var root = CosNaming::NamingContext::_narrow(initial);
    if (CORBA::is_nil(root)) return 1;
    CORBA::Object_var object = orb->string_to_object("corbaloc::1.2@127.0.0.1:2809/here");
    CosNaming::NamingContext_var context;
    auto is_object = [&](CORBA::Object_ptr other) {
        if (!object->_is_equivalent(other)) std::cout << "another ";
    };
    does("bind a", [&] { root->bind(name("a"), object); });
    does("bind a again", [&] { root->bind(name("a"), object); });
    does("resolve a", [&] { CORBA::Object_var found = root->resolve(name("a")); is_object(found); });
    does("bind_new_context c", [&] { context = root->bind_new_context(name("c")); });
    does("bind b in it", [&] { context->bind(name("b"), object); });
    does("resolve c/b", [&] { CORBA::Object_var found = root->resolve(name("c", "b")); is_object(found); });
    does("bind c/d", [&] { root->bind(name("c", "d"), object); });
    does("resolve d in it", [&] { CORBA::Object_var found = context->resolve(name("d")); is_object(found); });
    does("resolve c as a context", [&] {
        CORBA::Object_var found = root->resolve(name("c"));
        CosNaming::NamingContext_var again = CosNaming::NamingContext::_narrow(found);
        again->resolve(name("b"));
    });
    does("resolve x", [&] { root->resolve(name("x")); });
    does("resolve a/b", [&] { root->resolve(name("a", "b")); });
    does("rebind c", [&] { root->rebind(name("c"), object); });
    does("rebind a", [&] { root->rebind(name("a"), object); });
    does("resolve a name of no component", [&] { CosNaming::Name none; root->resolve(none); });
    does("unbind a", [&] { root->unbind(name("a")); });
    does("unbind a again", [&] { root->unbind(name("a")); });
    does("list", [&] {
        CosNaming::BindingList_var list;
        CosNaming::BindingIterator_var more;
        root->list(10, list, more);
    });
    orb->destroy();
    return 0;
}
