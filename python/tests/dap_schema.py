"""What messages of the Debug Adapter Protocol have, by its specification, and what does not fit that."""

from __future__ import annotations

import re
from typing import Any, Dict, Iterator, List

__all__ = ['CAPABILITIES', 'OF_CAPABILITIES', 'faults']

# The fields of each type: `?` says that there may be none, `*` that it is an array, and `|` what a text may be.
_TYPES: Dict[str, str] = {
    'Source': 'name? string, path? string, sourceReference? integer, presentationHint? normal|emphasize|deemphasize, origin? string',
    'StackFrame': 'id integer, name string, source? Source, line integer, column integer, endLine? integer, endColumn? integer, '
                  'canRestart? boolean, instructionPointerReference? string, presentationHint? normal|label|subtle',
    'Scope': 'name string, presentationHint? string, variablesReference integer, namedVariables? integer, indexedVariables? integer, '
             'expensive boolean, source? Source',
    'Variable': 'name string, value string, type? string, presentationHint? Hint, evaluateName? string, variablesReference integer, '
                'namedVariables? integer, indexedVariables? integer, memoryReference? string',
    'Hint': 'kind? string, attributes? string*, visibility? string, lazy? boolean',
    'Breakpoint': 'id? integer, verified boolean, message? string, source? Source, line? integer, column? integer, endLine? integer, '
                  'endColumn? integer, instructionReference? string, offset? integer',
    'Instruction': 'address string, instructionBytes? string, instruction string, symbol? string, location? Source, line? integer, '
                   'column? integer, presentationHint? normal|invalid',
    'GotoTarget': 'id integer, label string, line integer, column? integer, instructionPointerReference? string',
    'Completion': 'label string, text? string, sortText? string, detail? string, type? string, start? integer, length? integer',
    'Thread': 'id integer, name string',
    'Filter': 'filter string, label string, description? string, default? boolean, supportsCondition? boolean',
    'Error': 'id integer, format string, variables? texts, sendTelemetry? boolean, showUser? boolean, url? string, urlLabel? string',
    # Messages.
    'response': 'seq integer, type response, request_seq integer, success boolean, command string, message? string, body? any',
    'event': 'seq integer, type event, event string, body? any',
    # Bodies of responses.
    'error': 'error? Error',
    'initialize': '', 'launch': '', 'configurationDone': '', 'disconnect': '', 'terminate': '', 'next': '', 'stepIn': '', 'stepOut': '',
    'stepBack': '', 'reverseContinue': '', 'goto': '', 'pause': '',
    'continue': 'allThreadsContinued? boolean',
    'threads': 'threads Thread*',
    'stackTrace': 'stackFrames StackFrame*, totalFrames? integer',
    'scopes': 'scopes Scope*',
    'variables': 'variables Variable*',
    'setVariable': 'value string, type? string, variablesReference? integer, namedVariables? integer, indexedVariables? integer',
    'source': 'content string, mimeType? string',
    'loadedSources': 'sources Source*',
    **dict.fromkeys(('setBreakpoints', 'setFunctionBreakpoints', 'setDataBreakpoints', 'setInstructionBreakpoints'), 'breakpoints Breakpoint*'),
    'setExceptionBreakpoints': 'breakpoints? Breakpoint*',
    'dataBreakpointInfo': 'dataId textOrNull, description string, accessTypes? string*, canPersist? boolean',
    'gotoTargets': 'targets GotoTarget*',
    'exceptionInfo': 'exceptionId string, description? string, breakMode never|always|unhandled|userUnhandled',
    'disassemble': 'instructions Instruction*',
    'readMemory': 'address string, unreadableBytes? integer, data? string',
    'writeMemory': 'offset? integer, bytesWritten? integer',
    'evaluate': 'result string, type? string, presentationHint? Hint, variablesReference integer, namedVariables? integer, '
                'indexedVariables? integer, memoryReference? string',
    'completions': 'targets Completion*',
    # Bodies of events.
    '!initialized': '',
    '!stopped': 'reason step|breakpoint|exception|pause|entry|goto|function breakpoint|data breakpoint|instruction breakpoint, description? string, '
                'threadId? integer, preserveFocusHint? boolean, text? string, allThreadsStopped? boolean, hitBreakpointIds? integer*',
    '!output': 'category? console|important|stdout|stderr|telemetry, output string',
    '!breakpoint': 'reason changed|new|removed, breakpoint Breakpoint',
    '!loadedSource': 'reason new|changed|removed, source Source',
    '!invalidated': 'areas? string*, threadId? integer, stackFrameId? integer',
    '!memory': 'memoryReference string, offset integer, count integer',
    '!terminated': 'restart? any',
    '!progressStart': 'progressId string, title string, requestId? integer, cancellable? boolean, message? string, percentage? integer',
    '!progressUpdate': 'progressId string, message? string, percentage? integer',
    '!progressEnd': 'progressId string, message? string',
}

# The requests that each capability says there are.
OF_CAPABILITIES: Dict[str, List[str]] = {
    'supportsConfigurationDoneRequest': ['configurationDone'], 'supportsFunctionBreakpoints': ['setFunctionBreakpoints'],
    'supportsStepBack': ['stepBack', 'reverseContinue'], 'supportsSetVariable': ['setVariable'], 'supportsRestartFrame': ['restartFrame'],
    'supportsGotoTargetsRequest': ['gotoTargets'], 'supportsStepInTargetsRequest': ['stepInTargets'], 'supportsCompletionsRequest': ['completions'],
    'supportsModulesRequest': ['modules'], 'supportsRestartRequest': ['restart'], 'supportsExceptionInfoRequest': ['exceptionInfo'],
    'supportsLoadedSourcesRequest': ['loadedSources'], 'supportsTerminateThreadsRequest': ['terminateThreads'],
    'supportsSetExpression': ['setExpression'], 'supportsTerminateRequest': ['terminate'],
    'supportsDataBreakpoints': ['dataBreakpointInfo', 'setDataBreakpoints'], 'supportsReadMemoryRequest': ['readMemory'],
    'supportsWriteMemoryRequest': ['writeMemory'], 'supportsDisassembleRequest': ['disassemble'], 'supportsCancelRequest': ['cancel'],
    'supportsBreakpointLocationsRequest': ['breakpointLocations'], 'supportsInstructionBreakpoints': ['setInstructionBreakpoints']}

CAPABILITIES = {
    *OF_CAPABILITIES, 'supportsConditionalBreakpoints', 'supportsHitConditionalBreakpoints', 'supportsEvaluateForHovers', 'exceptionBreakpointFilters',
    'completionTriggerCharacters', 'additionalModuleColumns', 'supportedChecksumAlgorithms', 'supportsExceptionOptions',
    'supportsValueFormattingOptions', 'supportTerminateDebuggee', 'supportSuspendDebuggee', 'supportsDelayedStackTraceLoading', 'supportsLogPoints',
    'supportsClipboardContext', 'supportsSteppingGranularity', 'supportsExceptionFilterOptions', 'supportsSingleThreadExecutionRequests'}

_PLAIN = {'string': str, 'integer': int, 'boolean': bool, 'any': object, 'textOrNull': (str, type(None))}


def faults(message: Dict[str, Any]) -> Iterator[str]:
    """Where a message of an adapter does not fit the specification.

    >>> list(faults({'seq': 1, 'type': 'event', 'event': 'output', 'body': {'outputs': ''}}))
    ['output: there is no output', 'output: outputs is unknown']
    """
    kind = message.get('type')
    if kind not in ('response', 'event'):
        yield f'{kind!r} is no message of an adapter'
        return
    yield from _of_fields(kind, message, kind)
    if message.get('success') is False:
        yield from _of_fields('error', message.get('body', {}), 'error')
    elif message.get('command') == 'initialize':
        yield from (f'{name} is no capability' for name in set(message['body']) - CAPABILITIES)
        yield from _of_type('Filter*', message['body'].get('exceptionBreakpointFilters', []), 'filters')
    else:
        name = message['command'] if kind == 'response' else f'!{message["event"]}'
        yield from _of_fields(name, message.get('body', {}), name.lstrip('!')) if name in _TYPES else [f'{name} is unknown']


def _of_fields(name: str, value: Any, place: str) -> Iterator[str]:
    if not isinstance(value, dict):
        yield f'{place}: no object'
        return
    known = dict(re.split(r'(?<=[\w?]) ', each, maxsplit=1) for each in _TYPES[name].split(', ') if each)
    for field, kind in known.items():
        if field.rstrip('?') in value:
            yield from _of_type(kind, value[field.rstrip('?')], f'{place}.{field.rstrip("?")}')
        elif not field.endswith('?'):
            yield f'{place}: there is no {field}'
    yield from (f'{place}: {field} is unknown' for field in value if field not in known and f'{field}?' not in known)


def _of_type(kind: str, value: Any, place: str) -> Iterator[str]:
    if kind.endswith('*'):
        yield from [f'{place}: no array'] if not isinstance(value, list) else (
            fault for at, each in enumerate(value) for fault in _of_type(kind[:-1], each, f'{place}[{at}]'))
    elif kind == 'texts':
        yield from [] if isinstance(value, dict) and all(isinstance(each, str) for each in value.values()) else [f'{place}: no texts']
    elif kind in _PLAIN:
        is_bool = isinstance(value, bool) and kind == 'integer'
        yield from [f'{place}: no {kind}'] if is_bool or not isinstance(value, _PLAIN[kind]) else []
    elif kind in _TYPES and kind[0].isupper():
        yield from _of_fields(kind, value, place)
    else:
        yield from [f'{place}: {value!r} is none of {kind}'] if value not in kind.split('|') else []
