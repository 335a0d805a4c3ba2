cwlVersion: v1.2
class: Workflow
doc: Steps scattered over two arrays pair by pair, one behind the other, and a step that reads all of it.
requirements: {ScatterFeatureRequirement: {}}
inputs: {reads: 'File[]', mates: 'File[]', reference: File}
outputs:
  each: {type: 'File[]', outputSource: again/made}
  all: {type: File, outputSource: join/made}
steps:
  pair: {run: one.cwl, scatter: [read, second], scatterMethod: dotproduct, in: {read: reads, second: mates}, out: [made, log]}
  again: {run: one.cwl, scatter: read, in: {read: pair/made, second: reference}, out: [made, log]}
  join: {run: stamp.cwl, in: {read: pair/log}, out: [made]}
