// Makes the calls on standard input, by omniORB, and prints each with what came of it. A line is ADAPTER ID OPERATION
// [ARGUMENT]; where ADAPTER is `key`, ID is a whole object key in hexadecimal, and where it is `ior` a reference.
#include <iomanip>
#include <iostream>
#include <sstream>

#include "poad.hh"
#include "blunt.hh"

// Each octet as a corbaloc has it.
static std::string escaped(const std::string& octets) {
    std::ostringstream out;
    for (unsigned char octet : octets) out << '%' << std::hex << std::setw(2) << std::setfill('0') << int(octet);
    return out.str();
}

static std::string from_hex(const std::string& hex) {
    std::string octets;
    for (size_t at = 0; at < hex.size(); at += 2) octets += char(std::stoi(hex.substr(at, 2), nullptr, 16));
    return octets;
}

// The persistent key of an object of an adapter below the root.
static std::string key_of(const std::string& adapter, const std::string& id) {
    std::string key = "POA\1\1\1";
    return key + char(adapter.size()) + adapter + '\0' + char(id.size()) + id;
}

static poad::Octets octets_of(const std::string& text) {
    return poad::Octets(text.size(), text.size(), (CORBA::Octet*)text.data(), false);
}

static std::string text_of(poad::Octets_var octets) {
    return std::string((const char*)octets->get_buffer(), octets->length());
}

// What comes of an operation without an argument.
static std::string ask(CORBA::Object_ptr object, const std::string& operation) {
    if (operation == "get") return std::to_string(poad::Register_var(poad::Register::_unchecked_narrow(object))->get());
    if (operation == "ping") return poad::EchoServant_var(poad::EchoServant::_unchecked_narrow(object))->ping(), "";
    if (operation == "set") return Blunt_var(Blunt::_unchecked_narrow(object))->set(), "";
    return object->_non_existent() ? "yes" : "no";
}

// The same with one.
static std::string ask(CORBA::Object_ptr object, const std::string& operation, const std::string& argument) {
    poad::Register_var number = poad::Register::_unchecked_narrow(object);
    poad::Log_var log = poad::Log::_unchecked_narrow(object);
    poad::EchoServant_var echo = poad::EchoServant::_unchecked_narrow(object);
    if (operation == "set") return number->set(std::stoll(argument)), "";
    if (operation == "add") return std::to_string(number->add(std::stoll(argument)));
    if (operation == "append") return std::to_string(log->append(octets_of(argument)));
    if (operation == "fill") return std::to_string(log->append(octets_of(std::string(std::stoi(argument), 'x'))));
    if (operation == "read") return text_of(log->read(std::stoi(argument)));
    if (operation == "echo") return text_of(echo->echo(octets_of(argument)));
    return object->_is_a(argument.c_str()) ? "yes" : "no";
}

static std::string outcome(CORBA::ORB_ptr orb, const std::string& line) {
    std::istringstream words(line);
    std::string adapter, id, operation, argument;
    words >> adapter >> id >> operation >> argument;
    std::string key = adapter == "key" ? from_hex(id) : key_of(adapter, id);
    std::string reference = adapter == "ior" ? id : "corbaloc:iiop:1.2@127.0.0.1:2809/" + escaped(key);
    try {
        CORBA::Object_var object = orb->string_to_object(reference.c_str());
        return argument.empty() ? ask(object, operation) : ask(object, operation, argument);
    } catch (const CORBA::SystemException& raised) {
        std::ostringstream out;
        const char* completion[] = {"YES", "NO", "MAYBE"};
        out << raised._name() << ' ' << std::hex << raised.minor() << ' ' << completion[raised.completed()];
        return out.str();
    } catch (const CORBA::UserException& raised) {
        return raised._name();
    }
}

int main(int argc, char** argv) {
    CORBA::ORB_var orb = CORBA::ORB_init(argc, argv);
    for (std::string line; std::getline(std::cin, line);) std::cout << line << " = " << outcome(orb, line) << std::endl;
    orb->destroy();
}
