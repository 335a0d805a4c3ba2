cwlVersion: v1.2
class: Workflow
doc: A scatter over an array without elements, and steps that read its empty result.
requirements: {ScatterFeatureRequirement: {}, MultipleInputFeatureRequirement: {}}
inputs: {none: 'File[]', a: File}
outputs:
  all: {type: File, outputSource: join/made}
  each: {type: 'File[]', outputSource: map/made}
steps:
  map: {run: one.cwl, scatter: read, in: {read: none, second: a}, out: [made, log]}
  again: {run: one.cwl, scatter: read, in: {read: map/made}, out: [made, log]}
  other: {run: one.cwl, in: {read: a}, out: [made, log]}
  join: {run: stamp.cwl, in: {read: {source: [other/made, again/made], linkMerge: merge_flattened}}, out: [made]}
