# Makes the calls on standard input, by Combat, and prints each with what came of it. A line is ADAPTER ID OPERATION
# [ARGUMENT]; where ADAPTER is `key`, ID is a whole object key in hexadecimal.
package require combat

proc operation {name result parameters raises {interface Any}} {
    return [list operation [list IDL:poad/$interface/$name:1.0 $name 1.0] $result $parameters $raises]
}

# One interface has the operations of all servants, and one a `set` that forgets its argument. A reference names its
# interface, and no call asks the server for that.
combat::ir add [list \
    {exception {IDL:poad/Overflow:1.0 Overflow 1.0} {} {}} \
    {exception {IDL:poad/Full:1.0 Full 1.0} {} {}} \
    {exception {IDL:poad/Range:1.0 Range 1.0} {} {}} \
    [list interface {IDL:poad/Any:1.0 Any 1.0} {} [list \
        [operation get {long long} {} {}] \
        [operation set void {{in number {long long}}} {}] \
        [operation add {long long} {{in number {long long}}} IDL:poad/Overflow:1.0] \
        [operation append {unsigned long} {{in entry {sequence octet}}} IDL:poad/Full:1.0] \
        [operation read {sequence octet} {{in number {unsigned long}}} IDL:poad/Range:1.0] \
        [operation echo {sequence octet} {{in bytes {sequence octet}}} {}] \
        [operation ping void {} {}]]] \
    [list interface {IDL:poad/Blunt:1.0 Blunt 1.0} {} [list [operation set void {} {} Blunt]]]]

proc counted {octets} { return [binary format Ia* [string length $octets] $octets] }
proc padded {octets} { return [binary format a[expr {([string length $octets] + 3) / 4 * 4}] $octets] }

# The persistent key of an object of an adapter below the root.
proc key_of {adapter id} {
    return "POA\1\1\1[binary format ca*Sa* [string length $adapter] $adapter [string length $id] $id]"
}

proc object_of {type key} {
    set profile [binary format H8a*S 00010200 [counted "127.0.0.1\0"] 2809]
    append profile [padded [counted $key]] [binary format I 0]
    set ior [binary format I 0][padded [counted "IDL:poad/$type:1.0\0"]][binary format II 1 0][counted $profile]
    binary scan $ior H* hex
    return [corba::string_to_object IOR:$hex]
}

proc ask {key operation arguments} {
    set type [expr {$operation eq "set" && $arguments eq "" ? "Blunt" : "Any"}]
    set object [object_of $type $key]
    switch $operation {
        fill { return [$object append [string repeat x $arguments]] }
        _is_a { return [expr {[$object _is_a $arguments] ? "yes" : "no"}] }
        _non_existent { return [expr {[$object _non_existent] ? "yes" : "no"}] }
    }
    return [$object $operation {*}$arguments]
}

# An exception as words.
proc words_of {raised} {
    set name [lindex [split [lindex $raised 0] /:] end-1]
    set members [lindex $raised 1]
    if {![dict exists $members minor_code_value]} {
        return $name
    }
    set minor [format %x [expr {[dict get $members minor_code_value] & 0xffffffff}]]
    return "$name $minor [string range [dict get $members completion_status] 10 end]"
}

corba::init
while {[gets stdin line] >= 0} {
    lassign $line adapter id operation
    set key [expr {$adapter eq "key" ? [binary format H* $id] : [key_of $adapter $id]}]
    if {[catch {ask $key $operation [lrange $line 3 end]} outcome]} {
        set outcome [words_of $outcome]
    }
    puts "$line = $outcome"
}
