
# Added by integrations/redis/suite to what Redis' tests load last. A check that fails may leave its client in a transaction,
# so the next one gets a new client, and a server that has memory, runs no script and needs no replicas.
rename test test_as_it_is
proc test {name code args} {
    if {[info procs ::attach_as_it_is] eq {} && [info procs ::redis::attach_to_partition] ne {}} {
        rename attach_to_replication_stream ::attach_as_it_is
        interp alias {} ::attach_to_replication_stream {} ::redis::attach_to_partition
    }
    set before $::num_failed
    uplevel 1 [list test_as_it_is $name $code {*}$args]
    if {$::num_failed > $before} {
        catch {reconnect}
        catch {r script kill}
        catch {r function kill}
        catch {r config set maxmemory 0}
        catch {r config set min-replicas-to-write 0}
    }
}

# What the tests ask of a server's operator goes to the partitions behind a proxy, whose ports SQUALL_PARTITIONS names.
if {[info exists ::env(SQUALL_PARTITIONS)] && $::env(SQUALL_PARTITIONS) ne {}} {
    rename ::redis::__dispatch__ ::redis::__dispatch_to_proxy__

    # The answer is that of the first one.
    proc ::redis::to_partitions {words} {
        set why {}
        foreach port [lreverse $::env(SQUALL_PARTITIONS)] {
            set client [redis 127.0.0.1 $port]
            if {[catch {$client {*}$words} answer]} {set why $answer}
            $client close
        }
        if {$why ne {}} {error $why}
        return $answer
    }

    # A replica is one of the first partition. What defines this is loaded later than this file.
    proc ::redis::attach_to_partition {} {
        rename ::srv ::srv_of_proxy
        proc ::srv {args} {
            if {[lindex $args end] eq {port}} {return [lindex $::env(SQUALL_PARTITIONS) 0]}
            return [::srv_of_proxy {*}$args]
        }
        set code [catch {::attach_as_it_is} stream]
        rename ::srv {}
        rename ::srv_of_proxy ::srv
        if {$code} {error $stream}
        return $stream
    }

    # FLUSHALL would also remove what the partitions keep of the course.
    proc ::redis::clear_partitions {} {
        foreach port $::env(SQUALL_PARTITIONS) {
            set client [redis 127.0.0.1 $port]
            set keys [lsearch -all -inline -not -glob [$client keys *] squall:*]
            while {[llength $keys]} {
                $client unlink {*}[lrange $keys 0 999]
                set keys [lrange $keys 1000 end]
            }
            $client close
        }
        return OK
    }

    proc ::redis::of_operator {name argv} {
        # It would also remove the functions that make a server a partition.
        if {$name eq {function} && [string tolower [lindex $argv 0]] eq {flush}} {return OK}
        switch $name {
            config - function - pfselftest - save - script {return [::redis::to_partitions [list $name {*}$argv]]}
            flushall - flushdb {return [::redis::clear_partitions]}
            default {return OK}
        }
    }

    proc ::redis::__dispatch__ {id method args} {
        set name [string tolower $method]
        set sub [string tolower [lindex $args 0]]
        set is_of_operator [expr {$name in {config flushall flushdb function pfselftest save} || [list $name $sub] in {{script flush} {script kill}}}]
        if {!$is_of_operator || [lindex $::redis::addr($id) 1] in $::env(SQUALL_PARTITIONS)} {
            return [::redis::__dispatch_to_proxy__ $id $method {*}$args]
        }
        set answer [::redis::of_operator $name $args]
        if {$::redis::readraw($id)} {return [::redis::__dispatch_to_proxy__ $id echo $answer]}
        if {$::redis::deferred($id)} {
            # This one is read later, and all that is asked so is answered with OK.
            return [::redis::__dispatch_to_proxy__ $id select 0]
        }
        return $answer
    }
}
