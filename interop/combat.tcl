# A client of a transaction service over Combat, Tcl's ORB: it runs transactions with resources of its own, and prints a line
# for each case. `combat.tcl REFERENCE` runs all cases, `combat.tcl REFERENCE CASE ..` these, and
# `combat.tcl REFERENCE crash PID RESTART` kills the service of that process inside a commit, has it started again by that
# command, and goes on. A case that client.cc has too prints the same line there, unless a comment here says why it doesn't.
#
# Combat has one thread. While a call waits for its reply, and while `wait_until` waits, the calls of others are served.

package require combat

# --- The interfaces, as Combat's repository takes them ---

proc id {name} {return IDL:omg.org/CosTransactions/$name:1.0}

# The type of a word: a name that the module declares stands for its repository id.
proc typed {word} {
    if {[lindex $word 0] eq "sequence"} {return [list sequence [typed [lindex $word 1]]]}
    if {[string match {[A-Z]*} $word] || $word eq "otid_t"} {return [id $word]}
    return $word
}

proc declared {kind name args} {return [list $kind [list [id $name] $name 1.0] {*}$args]}

proc struct {name members} {
    declared struct $name [lmap {type member} $members {list $member [typed $type]}] {}
}

# The operations come as: result, name, types of the parameters, exceptions.
proc interface {name bases operations} {
    set all {}
    foreach {result operation parameters exceptions} $operations {
        set taken [lmap type $parameters {list in value [typed $type]}]
        lappend all [list operation [list [id $name/$operation] $operation 1.0] [typed $result] $taken \
            [lmap exception $exceptions {id $exception}]]
    }
    declared interface $name [lmap base $bases {id $base}] $all
}

set statuses {
    StatusActive StatusMarkedRollback StatusPrepared StatusCommitted StatusRolledBack StatusUnknown StatusNoTransaction
    StatusPreparing StatusCommitting StatusRollingBack
}
set contents {}
foreach name {TransactionFactory Control Terminator Coordinator RecoveryCoordinator Resource Synchronization
    SubtransactionAwareResource} {
    lappend contents [declared interface $name]
}
foreach name {HeuristicRollback HeuristicCommit HeuristicMixed HeuristicHazard SubtransactionsUnavailable NotSubtransaction
    Inactive NotPrepared Unavailable SynchronizationUnavailable} {
    lappend contents [declared exception $name {} {}]
}
lappend contents \
    [declared enum Status $statuses] \
    [declared enum Vote {VoteCommit VoteRollback VoteReadOnly}] \
    [struct otid_t {long formatID long bqual_length {sequence octet} tid}] \
    [struct TransIdentity {Coordinator coord Terminator term otid_t otid}] \
    [struct PropagationContext {
        {unsigned long} timeout TransIdentity current {sequence TransIdentity} parents any implementation_specific_data
    }] \
    [interface TransactionFactory {} {
        Control create {{unsigned long}} {}
        Control recreate PropagationContext {}
    }] \
    [interface Control {} {
        Terminator get_terminator {} Unavailable
        Coordinator get_coordinator {} Unavailable
    }] \
    [interface Terminator {} {
        void commit boolean {HeuristicMixed HeuristicHazard}
        void rollback {} {}
    }] \
    [interface Coordinator {} {
        Status get_status {} {}
        Status get_parent_status {} {}
        Status get_top_level_status {} {}
        boolean is_same_transaction Coordinator {}
        boolean is_related_transaction Coordinator {}
        boolean is_ancestor_transaction Coordinator {}
        boolean is_descendant_transaction Coordinator {}
        boolean is_top_level_transaction {} {}
        {unsigned long} hash_transaction {} {}
        {unsigned long} hash_top_level_tran {} {}
        RecoveryCoordinator register_resource Resource Inactive
        void register_synchronization Synchronization {Inactive SynchronizationUnavailable}
        void register_subtran_aware SubtransactionAwareResource {Inactive NotSubtransaction}
        void rollback_only {} Inactive
        string get_transaction_name {} {}
        Control create_subtransaction {} {SubtransactionsUnavailable Inactive}
        PropagationContext get_txcontext {} Unavailable
    }] \
    [interface RecoveryCoordinator {} {
        Status replay_completion Resource NotPrepared
    }] \
    [interface Resource {} {
        Vote prepare {} {HeuristicMixed HeuristicHazard}
        void rollback {} {HeuristicCommit HeuristicMixed HeuristicHazard}
        void commit {} {NotPrepared HeuristicRollback HeuristicMixed HeuristicHazard}
        void commit_one_phase {} HeuristicHazard
        void forget {} {}
    }] \
    [interface Synchronization {} {
        void before_completion {} {}
        void after_completion Status {}
    }] \
    [interface SubtransactionAwareResource Resource {
        void commit_subtransaction Coordinator {}
        void rollback_subtransaction {} {}
    }]
combat::ir add [list [list module {IDL:omg.org/CosTransactions:1.0 CosTransactions 1.0} $contents]]

# --- What is told and shown ---

# What was told, in order. A word that comes again at once is noted once.
set notes {}

proc note {word} {
    if {$word ne [lindex $::notes end]} {lappend ::notes $word}
}

proc take_notes {} {
    set all [join $::notes ", "]
    set ::notes {}
    return $all
}

proc show {args} {lappend ::shown {*}$args}

proc show_told {} {
    set words [take_notes]
    show [expr {$words eq "" ? "nothing told" : $words}]
}

proc word_of {status} {return [string range $status 6 end]}

proc flag {yes} {return [expr {$yes ? "true" : "false"}]}

# What a script does, as a word: ok, or the name of the exception that it raises, with its completion status if it has one.
proc outcome {script} {
    if {![catch {uplevel 1 $script} raised options]} {return ok}
    lassign $raised id members
    if {![regexp {^IDL:.*/(.*):} $id -> name]} {return -options $options $raised}
    if {[dict exists $members completion_status]} {
        append name " " [string range [dict get $members completion_status] [string length COMPLETED_] end]
    }
    return $name
}

# Waits until this holds, for some seconds at most.
proc wait_until {condition} {
    for {set turn 0} {$turn < 100 && ![uplevel 1 [list expr $condition]]} {incr turn} {
        after 100 {set ::waited yes}
        vwait ::waited
    }
}

# --- The objects of the client ---

# A script that raises this exception of the module.
proc raising {name} {return [list corba::throw [id $name]]}

# A script that fails. Whatever a method raises, unless it is a user exception of its operation, Combat answers as UNKNOWN:
# an object of Combat can't raise TRANSACTION_ROLLEDBACK or TRANSIENT, but it can have a fault.
set failing {error "a fault"}

# A resource, which notes what it is told, and does as it was bidden: a vote, and scripts to run when it is told a word.
itcl::class Resource {
    inherit PortableServer::ServantBase

    private variable name
    private variable bidding

    constructor {itsName itsBidding} {
        set name $itsName
        set bidding $itsBidding
    }
    public method _Interface {} {return CosTransactions::Resource}

    protected method told {word {more ""}} {
        note "$word $name$more"
        if {[dict exists $bidding $word]} {uplevel #0 [dict get $bidding $word]}
    }
    public method prepare {} {
        told prepare
        return [expr {[dict exists $bidding vote] ? [dict get $bidding vote] : "VoteCommit"}]
    }
    public method rollback {} {told rollback}
    public method commit {} {told commit}
    public method commit_one_phase {} {told commit_one_phase}
    public method forget {} {told forget}
}

# A resource that learns of the end of its subtransaction.
itcl::class AwareResource {
    inherit Resource

    constructor {itsName itsBidding} {Resource::constructor $itsName $itsBidding} {}
    public method _Interface {} {return CosTransactions::SubtransactionAwareResource}

    # It doesn't ask the parent what it is: the call would go over the connection on which `commit` waits, and would be
    # answered behind it.
    public method commit_subtransaction {parent} {
        told commit_subtransaction [expr {[is_equivalent $parent $::top] ? " into top" : " into sub"}]
    }
    public method rollback_subtransaction {} {told rollback_subtransaction}
}

# A synchronization, which may have a fault at the completion.
itcl::class Synchronization {
    inherit PortableServer::ServantBase

    private variable name
    private variable before

    constructor {itsName itsBefore} {
        set name $itsName
        set before $itsBefore
    }
    public method _Interface {} {return CosTransactions::Synchronization}
    public method before_completion {} {
        note "before $name"
        uplevel #0 $before
    }
    public method after_completion {status} {note "after $name [word_of $status]"}
}

# The reference of a new object of this class.
proc activated {class name {bidding {}}} {return [[$class ::#auto $name $bidding] _this]}

# Combat raises TRANSIENT where two references don't have the same place and key.
proc is_equivalent {one other} {return [expr {![catch {$one _is_equivalent $other} same] && $same}]}

# --- Transactions ---

# A transaction: its control, and what that gives.
itcl::class Transaction {
    private variable control
    private variable coordinator
    private variable terminator

    constructor {itsControl} {
        set control $itsControl
        set coordinator [$control get_coordinator]
        set terminator [$control get_terminator]
    }
    public method sub {} {return [Transaction ::#auto [$coordinator create_subtransaction]]}

    public method add {name args} {return [$coordinator register_resource [activated Resource $name $args]]}
    public method add_aware {name args} {return [$coordinator register_resource [activated AwareResource $name $args]]}
    public method add_only_aware {name} {$coordinator register_subtran_aware [activated AwareResource $name]}
    public method add_sync {name {before {}}} {
        $coordinator register_synchronization [activated Synchronization $name $before]
    }
    public method commit {{report 1}} {return [outcome {$terminator commit $report}]}
    public method rollback {} {return [outcome {$terminator rollback}]}
    public method status {} {return [word_of [$coordinator get_status]]}
    public method coordinator {} {return $coordinator}
    public method terminator {} {return $terminator}
    public method control {} {return $control}
}

# The coordinator of the top-level transaction that began last is $top.
proc begin {{seconds 0}} {
    set transaction [Transaction ::#auto [$::factory create $seconds]]
    set ::top [$transaction coordinator]
    return $transaction
}

# --- The cases ---

set cases {}

proc case {name body} {
    lappend ::cases $name
    proc case_$name {} $body
}

case empty {
    set t [begin]
    show [$t status] [$t commit] [$t status]
}

case two_phases {
    set t [begin]
    $t add a
    $t add b
    show [$t commit]
    show_told
    show [$t status]
}

case one_phase {
    set t [begin]
    $t add a
    show [$t commit]
    show_told
    show [$t status]
}

# client.cc has one_phase_refused, for which a resource of Combat would have to raise TRANSACTION_ROLLEDBACK.
case one_phase_fault {
    foreach report {1 0} {
        set t [begin]
        $t add a commit_one_phase $::failing
        show [$t commit $report]
        show_told
        show [$t status]
    }
}

case one_phase_hazard {
    foreach report {1 0} {
        set t [begin]
        $t add a commit_one_phase [raising HeuristicHazard]
        show [$t commit $report]
        show_told
        show [$t status]
    }
}

case read_only {
    set t [begin]
    $t add a vote VoteReadOnly
    $t add b
    $t add c vote VoteReadOnly
    show [$t commit]
    show_told
    show [$t status]
}

case all_read_only {
    set t [begin]
    $t add a vote VoteReadOnly
    $t add b vote VoteReadOnly
    show [$t commit]
    show_told
    show [$t status]
}

case vote_rollback {
    set t [begin]
    $t add a
    $t add b vote VoteRollback
    $t add c
    show [$t commit]
    show_told
    show [$t status]
}

case prepare_fault {
    set t [begin]
    $t add a
    $t add b prepare $::failing
    show [$t commit]
    show_told
    show [$t status]
}

case rolled_back {
    set t [begin]
    $t add a
    $t add b
    show [$t rollback]
    show_told
    show [$t status] [$t commit] [$t rollback]
}

case marked {
    set t [begin]
    $t add a
    show [outcome {[$t coordinator] rollback_only}] [$t status] [outcome {$t add b}] [$t commit]
    show_told
    show [$t status]
}

case sub_committed {
    set t [begin]
    set s [$t sub]
    $s add a
    $s add_aware b
    $s add_only_aware c
    show [$s commit]
    show_told
    show [$s status] [$t status] [$t commit]
    show_told
    show [$s status] [$t status]
}

case sub_rolled_back {
    set t [begin]
    set s [$t sub]
    $s add a
    $s add_aware b
    $s add_only_aware c
    $t add d
    show [$s rollback]
    show_told
    show [$s status] [$t status] [$t commit]
    show_told
    show [$t status]
}

case subs_of_subs {
    set t [begin]
    set s [$t sub]
    set u [$s sub]
    set v [$s sub]
    $u add_aware a
    $v add_aware b
    $s add_aware c
    show [$u commit]
    show_told
    show [$t commit]
    show_told
    show [$s status] [$v status] [$t status]
}

case sub_balks {
    set t [begin]
    set s [$t sub]
    $s add_aware a commit_subtransaction $::failing
    show [$s commit]
    show_told
    show [$s status] [$t status] [$t commit]
    show_told
}

case relations {
    set t [begin]
    set other [begin]
    set s [$t sub]
    set u [$s sub]
    set top [$t coordinator]
    set sub [$s coordinator]
    set leaf [$u coordinator]
    show "same [flag [$top is_same_transaction $top]] [flag [$top is_same_transaction $sub]]"
    show "related [flag [$sub is_related_transaction $leaf]] [flag [$sub is_related_transaction [$other coordinator]]]"
    show "ancestor [flag [$top is_ancestor_transaction $leaf]] [flag [$leaf is_ancestor_transaction $top]]"
    show "descendant [flag [$leaf is_descendant_transaction $top]] [flag [$top is_descendant_transaction $sub]]"
    show "top [flag [$top is_top_level_transaction]] [flag [$leaf is_top_level_transaction]]"
    set hash [$top hash_transaction]
    show "hashes [flag [expr {[$leaf hash_top_level_tran] == $hash}]] [flag [expr {[$leaf hash_transaction] == $hash}]]"
    show "name ends .[lindex [split [$sub get_transaction_name] .] end]"
    show "statuses [word_of [$leaf get_parent_status]] [word_of [$leaf get_top_level_status]]"
    show [$u rollback] [$u status] [$t rollback] [$other rollback]
}

case synchronizations {
    set t [begin]
    $t add a
    $t add b
    $t add_sync y
    $t add_sync z
    show [$t commit]
    show_told
    set u [begin]
    $u add c
    $u add_sync y
    show [$u rollback]
    show_told
}

case synchronization_balks {
    set t [begin]
    $t add a
    $t add b
    $t add_sync y $::failing
    show [$t commit]
    show_told
    set s [[begin] sub]
    show [outcome {$s add_sync z}]
    set u [begin]
    show [outcome {$u add_only_aware c}]
}

case heuristics {
    foreach report {1 0} {
        set t [begin]
        $t add a commit [raising HeuristicRollback]
        $t add b
        show [$t commit $report]
        show_told
    }
    set m [begin]
    $m add a commit [raising HeuristicMixed]
    $m add b commit [raising HeuristicHazard]
    show [$m commit]
    show_told
    set h [begin]
    $h add c commit [raising HeuristicHazard]
    $h add d
    show [$h commit]
    show_told
    set r [begin]
    $r add e rollback [raising HeuristicCommit]
    $r add f vote VoteRollback
    show [$r commit]
    show_told
    show [$r status]
}

case told_again {
    set ::calls 0
    set t [begin]
    $t add a commit {if {[incr calls] == 1} $failing}
    $t add b
    show [$t commit]
    show_told
    show [$t status]
    wait_until {[llength $::notes]}
    show_told
}

# A reference to the same object under another name of this machine. Combat has one connection to each host and port, so this
# one gets another, on which no call waits.
proc elsewhere {reference} {
    set same [$reference _duplicate]
    foreach profile [[[::Combat::CORBA::ORB::GetObjFromRef $same] get_ior] cget -profiles] {
        if {[$profile cget -tag] == 0} {$profile configure -host localhost}
    }
    return $same
}

case called_back {
    set t [begin]
    set ::free_coordinator [elsewhere [$t coordinator]]
    set ::free_terminator [elsewhere [$t terminator]]
    $t add a prepare {
        note "sees [word_of [$free_coordinator get_status]]"
        note [outcome {$free_coordinator register_resource [activated Resource late]}]
        note [outcome {$free_terminator commit 1}]
    }
    $t add b
    show [$t commit]
    show_told
}

# Over the connection on which `commit` waits there is no answer: the call is given up, and its reply comes behind the other.
case called_back_in_vain {
    set t [begin]
    set ::busy_coordinator [$t coordinator]
    $t add a prepare {note [outcome {$busy_coordinator -timeout 500 get_status}]}
    $t add b
    show [$t commit]
    show_told
    show [$t status]
}

case time_over {
    set t [begin 1]
    $t add a
    show "timeout [dict get [[$t coordinator] get_txcontext] timeout]"
    wait_until {[llength $::notes]}
    show_told
    show [$t status] [$t commit] [$t rollback]
}

case contexts {
    set t [begin]
    set s [$t sub]
    set context [[$s coordinator] get_txcontext]
    set parents [dict get $context parents]
    show "timeout [dict get $context timeout] parents [llength $parents]"
    show "current [flag [[dict get $context current coord] is_same_transaction [$s coordinator]]]"
    show "parent [flag [[dict get [lindex $parents 0] coord] is_same_transaction [$t coordinator]]]"
    set otid [dict get $context current otid]
    show "format [dict get $otid formatID] bqual [dict get $otid bqual_length] tid [string length [dict get $otid tid]]"
    show [outcome {$::factory recreate $context}]
    show [outcome {[dict get $context current term] rollback}] [$s status] [$t rollback]
}

case after_the_end {
    set t [begin]
    set s [$t sub]
    $t add a
    $t add b
    show [$t commit]
    take_notes
    show [outcome {$t add c}] [outcome {$t add_sync y}] [outcome {$t sub}] [outcome {[$t coordinator] rollback_only}]
    show [$t commit] [$t rollback] [$s commit] [$s rollback]
}

case replays {
    set mine [activated Resource a]
    set other [activated Resource b]
    set t [begin]
    set recovery [[$t coordinator] register_resource $mine]
    [$t coordinator] register_resource $other
    show [outcome {$recovery replay_completion $mine}]
    show [$t commit] [word_of [$recovery replay_completion $mine]]
    show [outcome {$recovery replay_completion 0}]
    take_notes
}

# The object with this key where the factory is. In an escape of a key Combat reads the first digit alone, so here is none but
# %00; other octets stand as they are.
proc object_of {key} {
    return [corba::string_to_object corbaloc:iiop:1.2@$::env(OTS_HOST):$::env(OTS_PORT)/$key]
}

# A duplicate is asked, since from then on Combat takes a reference for what it said yes to.
proc is_a {reference id} {
    set asked [$reference _duplicate]
    return [flag [$asked _is_a $id]][corba::release $asked]
}

case objects {
    set t [begin]
    set factory "factory [is_a $::factory [id TransactionFactory]] [is_a $::factory IDL:omg.org/CORBA/Object:1.0]"
    show "$factory [is_a $::factory [id Control]] [flag [$::factory _non_existent]]"
    show "control [is_a [$t control] [id Control]] [flag [[$t control] _non_existent]]"
    set zeros [string repeat %00 7]
    set lost [object_of OTSC$zeros\x07[string repeat %00 3]\x09[string repeat %00 4]$zeros\x01[string repeat %00 4]]
    show [outcome {show "lost [flag [$lost _non_existent]]"}]
    show [outcome {corba::dii $lost {Object get_coordinator {}}}]
    show [outcome {[object_of NameService] _is_a [id Control]}]
    show [outcome {corba::dii [$t control] {void rollback {}}}]
    show [outcome {[$t coordinator] register_resource 0}]
    show [$t rollback]
}

# Calls that want no reply are carried out too.
case unanswered {
    set t [begin]
    $t add a
    corba::dii [$t coordinator] {void rollback_only {} OP_ONEWAY}
    show [$t status]
    corba::dii [$t terminator] {void rollback {} OP_ONEWAY}
    show [$t status]
    show_told
}

# Many calls of one connection, all sent before the first is answered.
case crowd {
    for {set number 0} {$number < 80} {incr number} {
        lappend transactions [begin]
        [lindex $transactions end] add a
        [lindex $transactions end] add b
    }
    foreach {first second third fourth fifth} $transactions {
        foreach t [list $first $second $third $fourth] {lappend calls commit [[$t terminator] -async commit 1]}
        lappend calls rollback [[$fifth terminator] -async rollback]
    }
    foreach {call request} $calls {dict incr ends "$call [outcome {corba::request get $request}]"}
    take_notes
    foreach {end count} [lsort -stride 2 $ends] {show "$end $count"}
}

# Kills the service inside a commit, has it started again, and asks what was decided, as a prepared resource does. The first
# resource is busy until then, so that the decision stands. Combat raises INTERNAL for a connection that was lost, though it
# means COMM_FAILURE: it has forgotten the request that waits when it looks what became of it.
proc crash {service restart} {
    set ::shown {}
    set ::to_kill $service
    set ::busy yes
    set mine [activated Resource a [list commit {
        if {$to_kill ne ""} {exec kill -9 $to_kill}
        set to_kill ""
        if {$busy} $failing
    }]]
    set other [activated Resource b]
    set t [begin]
    [$t coordinator] register_resource $mine
    set recovery [[$t coordinator] register_resource $other]
    show [$t commit]
    show_told
    show [expr {[catch {exec {*}$restart}] ? "not restarted" : "restarted"}]
    wait_until {"commit b" in $::notes}
    show [outcome {show [word_of [$recovery replay_completion $other]]}]
    show [outcome {$recovery replay_completion $mine}]
    set there [lmap object [list $recovery [$t terminator] [$t coordinator]] {flag [expr {![$object _non_existent]}]}]
    show "there $there" [$t commit]
    set ::busy no
    wait_until {[$recovery _non_existent]}
    show_told
    show "there [flag [expr {![$recovery _non_existent]}]]" [outcome {$recovery replay_completion $other}]
    puts "crash: [join $::shown "; "]"
}

proc run {name} {
    set ::shown {}
    take_notes
    set end [outcome case_$name]
    if {$end ne "ok"} {show "raised $end"}
    puts "$name: [join $::shown "; "]"
}

fconfigure stdout -buffering line
after 120000 {
    puts stderr "combat.tcl: a call got no answer"
    exit 1
}
corba::init -ORBHostName $env(OTS_HOST)
[[corba::resolve_initial_references RootPOA] the_POAManager] activate
set factory [corba::string_to_object [lindex $argv 0]]
if {[lindex $argv 1] eq "crash"} {
    crash {*}[lrange $argv 2 end]
} else {
    foreach name $cases {
        if {[llength $argv] == 1 || $name in $argv} {run $name}
    }
}
exit 0
