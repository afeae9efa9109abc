"""The sabotages that tests/sabotage has, and the suite that is known to notice each."""
import collections

# What is wrong, in words that the library lib/c/sabotage.c and whoever reads the table know it by; the suite that notices it and what
# of the suite; an option that has another value; and a variable that isn't heeded.
Sabotage = collections.namedtuple('Sabotage', 'name suite words option value lost', defaults=[(), '', '', ''])

SABOTAGES = [
    # What a command writes, and its status.
    Sabotage('the status is always 0', 'program', ['config_unknown', 'keywords']),
    Sabotage('standard error is dropped', 'program', ['config_']),
    Sabotage('the line of a fault is another', 'program', ['config_']),
    Sabotage('explanations are dropped', 'program', ['keywords']),
    Sabotage('a digit of a listing is another', 'program', ['set_then_show']),
    Sabotage('a verdict is swapped', 'program', ['config_replayed']),
    Sabotage('a word of the help is another', 'program', ['help']),
    Sabotage('the version is another', 'program', ['--', '--version']),
    Sabotage('a line that was adopted is lost', 'adopt', ['files']),
    Sabotage('the allocations are out of reach', 'refusals', ['checks'], lost='LD_PRELOAD'),
    # How a run ends.
    Sabotage('the end line is fixed', 'live', ['nothing_is_served', 'many_settle', 'the_server_is_gone']),
    Sabotage('the end line has one reference', 'package', ['the_example_shows_the_proxy']),
    Sabotage('the end line has no reference', 'campaigns', ['settling-refused']),
    Sabotage("the socket's file is left behind", 'operations', ['a_frontend_is_shut_down']),
    # The command socket and those who ask it.
    Sabotage('a digit of a listing of the socket is another', 'operations', ['answers_are_shown_as_they_come']),
    Sabotage('a listing of the socket lacks a row', 'operations', ['the_greatest_come_first']),
    Sabotage('an answer of the socket is late', 'edges', ['an_idle_client_shuts_nobody_out']),
    Sabotage('an answer of the socket is cut', 'live', ['commands_are_answered']),
    Sabotage('who asks is closed all the same', 'edges', ['a_silent_client_of_the_socket_has_its_time']),
    Sabotage('who is silent has 10 seconds', 'edges', ['a_silent_client_of_the_socket_has_its_time'], '--timeout-socket', '10s'),
    Sabotage('who is silent has less than its time', 'edges', ['a_silent_client_of_the_socket_has_its_time'], '--timeout-socket', '400ms'),
    Sabotage('anybody may use the command socket', 'edges', ['the_mode_of_the_socket']),
    Sabotage("a row of top is in another's place", 'operations', ['the_greatest_come_first']),
    Sabotage('a digit of JSON is another', 'operations', ['json_says_what_the_answer_says']),
    Sabotage('a row that is saved is lost', 'operations', ['a_restart_keeps_entries']),
    # What is told of a run.
    Sabotage('warnings are dropped', 'edges', ['each_doubt_is_said_once']),
    Sabotage('a metric keeps its first value', 'operations', ['counts_add_up']),
    Sabotage('a front end is said to have stopped', 'operations', ['info_and_stat_count']),
    Sabotage('a report counts another number', 'operations', ['a_line_comes_each_time']),
    Sabotage('the manager is not told that it is ready', 'operations', ['the_manager_is_told']),
    # Connections.
    Sabotage('a byte that is relayed is another', 'live', ['bytes_are_carried_and_counted']),
    Sabotage('a client of fifty is lost', 'operations', ['no_connection_is_refused_over_restarts']),
    Sabotage('current connections are shown as none', 'crowds', ['no_more_than_the_limit']),
    Sabotage('the limit of connections is another', 'crowds', ['no_more_than_the_limit'], '--connections', '1000'),
    Sabotage('half a header has more than its time', 'operations', ['half_a_header_has_its_time'], '--timeout-header', '10s'),
    Sabotage('a header is bytes', 'operations', ['each_told_source_has_its_own_limit'], '--accept-proxy', '192.0.2.1'),
    Sabotage('a silent client stays', 'crowds', ['silent_clients_are_closed'], '--timeout-client', '1m'),
    Sabotage('sockets that are handed over are left', 'operations', ['sockets_are_taken_over'], lost='LISTEN_FDS'),
]
