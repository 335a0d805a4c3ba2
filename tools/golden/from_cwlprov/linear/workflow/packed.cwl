{
 "$graph": [
  {
   "class": "CommandLineTool",
   "id": "#join",
   "baseCommand": "cat",
   "inputs": [
    {
     "type": "File",
     "inputBinding": {
      "position": 1
     },
     "id": "#join/left"
    },
    {
     "type": "File",
     "inputBinding": {
      "position": 2
     },
     "id": "#join/right"
    }
   ],
   "stdout": "joined.txt",
   "outputs": [
    {
     "type": "File",
     "id": "#join/joined",
     "outputBinding": {
      "glob": "joined.txt"
     }
    }
   ]
  },
  {
   "class": "Workflow",
   "id": "#main",
   "inputs": [
    {
     "type": "File",
     "id": "#main/other"
    },
    {
     "type": "File",
     "id": "#main/reads"
    }
   ],
   "outputs": [
    {
     "type": "File",
     "outputSource": "#main/join/joined",
     "id": "#main/result"
    }
   ],
   "steps": [
    {
     "run": "#order",
     "in": [
      {
       "source": "#main/other",
       "id": "#main/again/lines"
      }
     ],
     "out": [
      "#main/again/sorted"
     ],
     "id": "#main/again"
    },
    {
     "run": "#join",
     "in": [
      {
       "source": "#main/order/sorted",
       "id": "#main/join/left"
      },
      {
       "source": "#main/other",
       "id": "#main/join/right"
      }
     ],
     "out": [
      "#main/join/joined"
     ],
     "id": "#main/join"
    },
    {
     "run": "#order",
     "in": [
      {
       "source": "#main/reads",
       "id": "#main/order/lines"
      }
     ],
     "out": [
      "#main/order/sorted"
     ],
     "id": "#main/order"
    }
   ]
  },
  {
   "class": "CommandLineTool",
   "id": "#order",
   "baseCommand": "sort",
   "inputs": [
    {
     "type": "File",
     "inputBinding": {
      "position": 1
     },
     "id": "#order/lines"
    }
   ],
   "stdout": "sorted.txt",
   "outputs": [
    {
     "type": "File",
     "id": "#order/sorted",
     "outputBinding": {
      "glob": "sorted.txt"
     }
    }
   ]
  }
 ],
 "cwlVersion": "v1.2"
}