" Models of `room`. Made by editors/make from the tables of words in the sources; don't edit.
if exists('b:current_syntax')
  finish
endif

syntax case match
syntax keyword roomPart ActorClass ActorInstanceMapping ActorRef Attribute Behavior Binding ChoicePoint DataClass EntryPoint ExitPoint Interface LayerConnection LogicalSystem LogicalThread Message Port ProtocolClass RefinedState RefinedTransition RoomModel SAP SPP ServiceImplementation State StateMachine Structure SubSystemClass SubSystemRef Transition TransitionPoint
syntax keyword roomWord action and cond conjugated cp entry eventdriven exit extends external fixed from guard import imported incoming initial my of optional or outgoing ref satisfied_by subgraph triggers usercode usercode1 usercode2 usercode3
syntax keyword roomType boolean int16 int32 int8 uint16 uint32 uint8
syntax keyword roomValue true false
syntax keyword roomDeed contained as at background data defer deport destroy else general high if import incarnate low panic place recall recallAll register repeat self withdraw
syntax match roomNumber "\<\d\+\>"
syntax match roomComment "//.*$" contains=roomTodo
syntax region roomComment start="/\*" end="\*/" contains=roomTodo
syntax keyword roomTodo contained TODO FIXME
syntax cluster roomCode contains=roomDeed,roomValue,roomNumber,roomEscape,roomCodeComment
syntax match roomCodeComment contained "//[^"']*"
syntax match roomEscape contained "\\."
syntax region roomString start=+"+ skip=+\\.+ end=+"+ oneline contains=@roomCode
syntax region roomString start=+'''+ end=+'''+ contains=@roomCode
syntax region roomDocumentation start=+\[\_s*"+ end=+"\_s*\]+

highlight default link roomPart Structure
highlight default link roomWord Keyword
highlight default link roomType Type
highlight default link roomValue Boolean
highlight default link roomDeed Statement
highlight default link roomNumber Number
highlight default link roomComment Comment
highlight default link roomCodeComment Comment
highlight default link roomTodo Todo
highlight default link roomEscape SpecialChar
highlight default link roomString String
highlight default link roomDocumentation SpecialComment

let b:current_syntax = 'room'
