# Calls an object of each adapter of desk.toml, by Combat.
package require combat
combat::ir add {
    {interface {IDL:poad/Register:1.0 Register 1.0} {} {
        {operation {IDL:poad/Register/get:1.0 get 1.0} {long long} {} {}}
        {operation {IDL:poad/Register/add:1.0 add 1.0} {long long} {{in number {long long}}} {}}}}
    {interface {IDL:poad/Echo:1.0 Echo 1.0} {} {
        {operation {IDL:poad/Echo/echo:1.0 echo 1.0} {sequence octet} {{in bytes {sequence octet}}} {}}}}
    {interface {IDL:poad/Log:1.0 Log 1.0} {} {
        {exception {IDL:poad/Range:1.0 Range 1.0} {} {}}
        {operation {IDL:poad/Log/append:1.0 append 1.0} {unsigned long} {{in entry {sequence octet}}} {}}
        {operation {IDL:poad/Log/read:1.0 read 1.0} {sequence octet} {{in number {unsigned long}}} {IDL:poad/Range:1.0}}}}
}

proc counted {octets} { return [binary format Ia* [string length $octets] $octets] }
proc padded {octets} { return [binary format a[expr {([string length $octets] + 3) / 4 * 4}] $octets] }
# The object of an adapter of one name, by the id, from a reference with its persistent key.
proc at {type adapter id} {
    set key "POA\1\1\1[binary format ca*Sa* [string length $adapter] $adapter [string length $id] $id]"
    set profile [binary format H8a*S 00010200 [counted "127.0.0.1\0"] 2809]
    append profile [padded [counted $key]] [binary format I 0]
    set ior [binary format I 0][padded [counted "IDL:poad/$type:1.0\0"]][binary format II 1 0][counted $profile]
    binary scan $ior H* hex
    return [corba::string_to_object IOR:$hex]
}
corba::init
set counter [at Register map main]
puts "map: [$counter get], then [$counter add 2]"
set hello [at Echo echo a]
puts "echo: [$hello echo hi]"
set counter [at Register accounts ann]
puts "accounts: [$counter add 100]"
set audit [at Log route audit]
puts "route: entry [$audit append hi]"
if {[catch {$audit read 1000} raised]} {
    puts "route: $raised"
}
if {[catch {[at Log route none] append hi} raised]} {
    puts $raised
}
