%% The ring of bench/run.sh in Erlang: N processes; each is kicked with 7 and passes a token on until it is 0: 9N messages are taken.
%% With a second number one alone is kicked, with that number: one token, as bench/hops.sh asks for it.
%% usage: erl -noshell -s ring main N [TOKEN]
-module(ring).
-export([main/1]).
node_loop(Parent, Next, Left) ->
    receive
        {next, P} -> node_loop(Parent, P, Left);
        {kick, K} -> Next ! {tok, K}, node_loop(Parent, Next, Left);
        {tok, 0} -> Parent ! done, node_loop(Parent, Next, Left);
        {tok, K} -> Next ! {tok, K - 1}, node_loop(Parent, Next, Left);
        stop -> ok
    end.
main([A]) -> ring(number(A), fun(Ps) -> [P ! {kick, 7} || P <- Ps], length(Ps) end, 7);
main([A, T]) -> ring(number(A), fun([P | _]) -> P ! {kick, number(T)}, 1 end, number(T)).
number(A) -> list_to_integer(atom_to_list(A)).
ring(N, Kick, Token) ->
    Me = self(),
    T0 = erlang:monotonic_time(microsecond),
    Ps = [spawn(fun() -> node_loop(Me, none, 0) end) || _ <- lists:seq(1, N)],
    lists:foreach(fun({P, Q}) -> P ! {next, Q} end, lists:zip(Ps, tl(Ps) ++ [hd(Ps)])),
    T1 = erlang:monotonic_time(microsecond),
    Kicked = Kick(Ps),
    wait(Kicked),
    T2 = erlang:monotonic_time(microsecond),
    io:format("ring ~p: spawn ~p us, run ~p us, ~p messages~n", [N, T1 - T0, T2 - T1, (Token + 2) * Kicked]),
    halt(0).
wait(0) -> ok;
wait(K) -> receive done -> wait(K - 1) end.
