% The rules of a valid graph, and what it costs, over the facts of one problem, which facts.py writes.
%
% A model is a graph: node(N), origin(N,O), version(N,V), value(N,X,Y) of a variant X, compiler(N,C), os(N,S), target(N,T),
% edge(N,M,K) of a kind K, and provider(U,M) of a virtual U. What conditions say is derived from the graph, and of the graph only what
% conditions without `^` ask for is derived from them: so a condition with `^` may support itself, as the rules have it. Nodes
% follow from roots and edges, which is the rule Unreachable.
%
% Facts of nodes:        root(N). option(N,O), where O is build, external(I) or installed(I), and option_version and the like say what such a
%                        node has; option_child(N,O,M,P): its child M is the node P; option_provider(N,O,U,M): its child M provides U to it.
% of the machine:        configured(C), lacks_os(C,S), lacks_target(C,T), machine_os(S), machine_target(T).
% of conditions:         plain(C,N), far(C,N): C is a condition at N without `^`, with it. asks(C,F): it makes the test F of the node.
%                        asks_below(C,Q): it asks for the part Q after `^`. version_in(N,S,V): the set S contains V; so for
%                        compilers and targets. package_part(Q,M,C): Q asks for M, where C is to hold; virtual_part(Q,U,S): it asks
%                        for U by the list S, and rest(Q,M,C) for C at its provider M; offer(M,U,S,C): M provides U for S where C holds.
%                        wants(N,Q,M): Q may mean M below N. way(N,M): a path from N to M may be asked for.
% of directives:         definition(N,X,D,C), of which single, multi, allowed and default say more; fixed(N,X,D): D governs X at each
%                        node, loose(N,X): none does. depends(N,D,C,Q), kind(N,D,K), to_package(N,D,M), to_virtual(N,D,U).
%                        maybe_edge(N,M,K): a condition with `^` may ask for this edge. plain_virtual(U), free_virtual(U): without
%                        and with conditions with `^` asking for U. possible_provider(U,M,S), where S is each list.
%                        conflict(N,C). one_of(N,C,R), any_of(N,C,R), place(R,I,C). hopeless(N,C), hopeless_root: cannot be kept.
% of the settings:       required_one(N,C,R), required_any(N,C,R) with places likewise, at nodes of each origin.
% of costs:              deprecated(N,V), version_weight(N,V,W), provider_weight(U,M,W), os_weight(S,W), and so on.

% ---- nodes

node(N) :- root(N).
node(M) :- link(_,M).

1 { origin(N,O) : option(N,O) } 1 :- node(N).
built(N) :- origin(N,build).
kept(N,O) :- origin(N,O), O != build.

% Version, Compiler, Machine; Buildable is in the options
1 { version(N,V) : declared(N,V) } 1 :- built(N).
1 { compiler(N,C) : configured(C) } 1 :- built(N).
1 { os(N,O) : machine_os(O) } 1 :- built(N).
1 { target(N,T) : machine_target(T) } 1 :- built(N).
:- built(N), compiler(N,C), os(N,O), lacks_os(C,O).
:- built(N), compiler(N,C), target(N,T), lacks_target(C,T).

% Kept
version(N,V) :- kept(N,O), option_version(N,O,V).
compiler(N,C) :- kept(N,O), option_compiler(N,O,C).
os(N,S) :- kept(N,O), option_os(N,O,S).
target(N,T) :- kept(N,O), option_target(N,O,T).
value(N,X,Y) :- kept(N,O), option_value(N,O,X,Y).
edge(N,M,K) :- kept(N,O), option_edge(N,O,M,K).
:- kept(N,O), option_child(N,O,M,P), not origin(M,P).
:- kept(N,O), option_provider(N,O,U,M), not provider(U,M).

% ---- conditions

has(N,version(S)) :- version(N,V), version_in(N,S,V).
has(N,value(X,Y)) :- value(N,X,Y), asked_value(N,X,Y).
has(N,compiler(S)) :- compiler(N,C), compiler_in(N,S,C).
has(N,os(O)) :- os(N,O), asked_os(N,O).
has(N,target(S)) :- target(N,T), target_in(N,S,T).

holds(C) :- plain(C,N), node(N), has(N,F) : asks(C,F).

true(C) :- holds(C).
true(C) :- far(C,N), node(N), has(N,F) : asks(C,F); below(N,Q) : asks_below(C,Q).

% the node that a part with a name asks for suits it
provides(M,U,S) :- offer(M,U,S,C), holds(C).
suits(Q,M) :- package_part(Q,M,C), holds(C).
suits(Q,M) :- virtual_part(Q,U,S), provider(U,M), provides(M,U,S), rest(Q,M,C), holds(C).

path(N,M) :- way(N,M), link(N,M).
path(N,M) :- way(N,M), link(N,L), path(L,M).
below(N,Q) :- wants(N,Q,M), suits(Q,M), path(N,M).

% Root
:- root_condition(C), not true(C).
:- hopeless_root.

% ---- variants

1 { value(N,X,Y) : allowed(N,D,Y) } 1 :- built(N), fixed(N,X,D), single(N,D).
1 { value(N,X,Y) : allowed(N,D,Y) } :- built(N), fixed(N,X,D), multi(N,D).
{ value(N,X,Y) : possible_value(N,X,Y) } :- built(N), loose(N,X).

overruled(N,X,D) :- definition(N,X,D,_), definition(N,X,E,C), E > D, true(C).
governing(N,X,D) :- definition(N,X,D,C), true(C), not overruled(N,X,D).
governed(N,X) :- governing(N,X,_).

% Variant
:- built(N), loose(N,X), value(N,X,_), not governed(N,X).
:- built(N), loose(N,X), governing(N,X,D), value(N,X,Y), not allowed(N,D,Y).
:- built(N), loose(N,X), governing(N,X,D), single(N,D), not 1 { value(N,X,Y) : possible_value(N,X,Y) } 1.
:- built(N), loose(N,X), governing(N,X,D), multi(N,D), not 1 { value(N,X,Y) : possible_value(N,X,Y) }.

% ---- dependencies

plain_active(N,D) :- built(N), depends(N,D,C,_), holds(C).
active(N,D) :- built(N), depends(N,D,C,_), true(C).

wanted(N,M,K) :- active(N,D), kind(N,D,K), to_package(N,D,M).
wanted(N,M,K) :- active(N,D), kind(N,D,K), to_virtual(N,D,U), provider(U,M).

% Edge, ExtraEdge
edge(N,M,K) :- plain_active(N,D), kind(N,D,K), to_package(N,D,M).
edge(N,M,K) :- plain_active(N,D), kind(N,D,K), to_virtual(N,D,U), provider(U,M).
{ edge(N,M,K) } :- built(N), maybe_edge(N,M,K).
:- built(N), maybe_edge(N,M,K), edge(N,M,K), not wanted(N,M,K).
:- maybe_edge(N,M,K), wanted(N,M,K), not edge(N,M,K).

link(N,M) :- edge(N,M,_).

% Constraint
suited(Q) :- suits(Q,_).
:- active(N,D), depends(N,D,_,Q), not suited(Q).
:- built(N), hopeless(N,C), true(C).

% Provider, UnusedProvider; where a condition with `^` may ask for the virtual, its provider is chosen freely
plain_used(U) :- plain_active(N,D), to_virtual(N,D,U).
plain_used(U) :- kept(N,O), option_provider(N,O,U,_).
used(U) :- active(N,D), to_virtual(N,D,U).
used(U) :- kept(N,O), option_provider(N,O,U,_).
1 { provider(U,M) : possible_provider(U,M,_) } 1 :- plain_used(U), plain_virtual(U).
{ provider(U,M) : possible_provider(U,M,_) } 1 :- free_virtual(U).
:- provider(U,M), not used(U).
:- provider(U,M), possible_provider(U,M,S), not provides(M,U,S).

% Conflict
:- built(N), conflict(N,C), true(C).

% Requirement
:- built(N), one_of(N,C,R), true(C), not 1 { place(R,I,P) : place(R,I,P), true(P) } 1.
:- built(N), any_of(N,C,R), true(C), not true(P) : place(R,_,P).

% Required
:- required_one(N,C,R), true(C), not 1 { place(R,I,P) : place(R,I,P), true(P) } 1.
:- required_any(N,C,R), true(C), not true(P) : place(R,_,P).

% Cycle
#edge (N,M) : link(N,M).

% ---- costs: the criteria by their numbers, over the nodes to build and over the others

cost(1,N,version,1) :- version(N,V), deprecated(N,V).
cost(2,N,version,W) :- root(N), version(N,V), version_weight(N,V,W).
cost(11,N,version,W) :- not root(N), version(N,V), version_weight(N,V,W).
beside(N,value(X,Y)) :- value(N,X,Y), governing(N,X,D), not default(N,D,Y).
cost(3,N,T,1) :- root(N), beside(N,T).
cost(6,N,T,1) :- not root(N), beside(N,T).
cost(4,M,U,W) :- root(M), provider(U,M), provider_weight(U,M,W).
cost(7,M,U,W) :- not root(M), provider(U,M), provider_weight(U,M,W).
has_variant(N,X) :- value(N,X,_).
unused(N,value(X,Y)) :- governing(N,X,D), default(N,D,Y), has_variant(N,X), not value(N,X,Y).
cost(5,N,T,1) :- root(N), unused(N,T).
cost(12,N,T,1) :- not root(N), unused(N,T).
has_compiler(N) :- compiler(N,_).
same_compiler(N,M) :- link(N,M), compiler(N,C), compiler(M,C).
cost(8,N,M,1) :- link(N,M), has_compiler(N), has_compiler(M), not same_compiler(N,M).
same_os(N,M) :- link(N,M), os(N,O), os(M,O).
cost(9,N,M,1) :- link(N,M), not same_os(N,M).
same_target(N,M) :- link(N,M), target(N,T), target(M,T).
cost(14,N,M,1) :- link(N,M), not same_target(N,M).
cost(10,N,os,W) :- os(N,O), os_weight(O,W).
cost(13,N,compiler,W) :- compiler(N,C), compiler_weight(C,W).
cost(15,N,target,W) :- target(N,T), target_weight(T,W).

base(N,32) :- built(N).
base(N,16) :- kept(N,_).
#minimize { W@B-I,N,T : cost(I,N,T,W), base(N,B), W > 0 }.
#minimize { 1@16,N : built(N) }.

#show.
